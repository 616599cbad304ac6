"""Meshes to import: each a list of points and a list of triangles, counter-clockwise from outside."""
import math


def joined(*meshes):
    """Several meshes as one, whose points aren't joined."""
    points, triangles = [], []
    for some_points, some_triangles in meshes:
        first = len(points)
        points += some_points
        triangles += [tuple(first + corner for corner in triangle) for triangle in some_triangles]
    return points, triangles


def sphere(rings, radius=10.0):
    """By rings of latitude, with twice as many points a ring."""
    around = 2 * rings
    points = [(0.0, 0.0, radius)]
    for ring in range(1, rings):
        height, out = math.cos(math.pi * ring / rings), math.sin(math.pi * ring / rings)
        for step in range(around):
            angle = 2 * math.pi * step / around
            points.append((radius * out * math.cos(angle), radius * out * math.sin(angle), radius * height))
    points.append((0.0, 0.0, -radius))
    at = lambda ring, step: 1 + (ring - 1) * around + step % around
    triangles = [(0, at(1, s), at(1, s + 1)) for s in range(around)]
    triangles += [(len(points) - 1, at(rings - 1, s + 1), at(rings - 1, s)) for s in range(around)]
    for ring in range(1, rings - 1):
        for s in range(around):
            triangles.append((at(ring, s), at(ring + 1, s), at(ring + 1, s + 1)))
            triangles.append((at(ring, s), at(ring + 1, s + 1), at(ring, s + 1)))
    return points, triangles


def torus(around, across, wide=10.0, thin=3.0):
    points = []
    for i in range(around):
        for j in range(across):
            a, b = 2 * math.pi * i / around, 2 * math.pi * j / across
            out = wide + thin * math.cos(b)
            points.append((out * math.cos(a), out * math.sin(a), thin * math.sin(b)))
    at = lambda i, j: i % around * across + j % across
    triangles = []
    for i in range(around):
        for j in range(across):
            triangles.append((at(i, j), at(i + 1, j), at(i + 1, j + 1)))
            triangles.append((at(i, j), at(i + 1, j + 1), at(i, j + 1)))
    return points, triangles


def cubes(cells):
    """The surface of a set of unit cubes. Where two of them meet at an edge alone, the edge has four triangles."""
    numbers, points, triangles = {}, [], []

    def number(place):
        if place not in numbers:
            numbers[place] = len(points)
            points.append(tuple(float(value) for value in place))
        return numbers[place]

    for cell in sorted(cells):
        for axis in range(3):
            for side in (0, 1):
                beside = tuple(value + (2 * side - 1) * (at == axis) for at, value in enumerate(cell))
                if beside in cells:
                    continue
                u, v = (axis + 1) % 3, (axis + 2) % 3
                corners = []
                for du, dv in ((0, 0), (1, 0), (1, 1), (0, 1)):
                    place = list(cell)
                    place[axis] += side
                    place[u] += du
                    place[v] += dv
                    corners.append(number(tuple(place)))
                a, b, c, d = corners if side else corners[::-1]
                triangles += [(a, b, c), (a, c, d)]
    return points, triangles


def box_with_handles(size):
    """A box with three tunnels, which don't meet."""
    cells = {(x, y, z) for x in range(size) for y in range(size) for z in range(size)}
    low, high = size // 4, 3 * size // 4
    tunnels = [lambda x, y, z: y == low and z == low, lambda x, y, z: x == high and z == high,
               lambda x, y, z: x == low and y == high]
    return cubes({cell for cell in cells if not any(tunnel(*cell) for tunnel in tunnels)})


def terrain(side, holes=()):
    """A sheet of hills; a hole is (x, y, width) in squares."""
    height = lambda x, y: 3 * math.sin(x / 5) * math.cos(y / 4) + math.sin(x * 0.9 + y * 0.7)
    points = [(float(x), float(y), height(x, y)) for y in range(side + 1) for x in range(side + 1)]
    triangles = []
    for y in range(side):
        for x in range(side):
            if any(hx <= x < hx + wide and hy <= y < hy + wide for hx, hy, wide in holes):
                continue
            a = y * (side + 1) + x
            b, c, d = a + 1, a + side + 2, a + side + 1
            triangles += [(a, b, c), (a, c, d)]
    return points, triangles


def flat_sheet(side, other_diagonal=False):
    points = [(float(x), float(y), 0.0) for y in range(side + 1) for x in range(side + 1)]
    triangles = []
    for y in range(side):
        for x in range(side):
            a = y * (side + 1) + x
            b, c, d = a + 1, a + side + 2, a + side + 1
            triangles += [(a, b, d), (b, c, d)] if other_diagonal else [(a, b, c), (a, c, d)]
    return points, triangles


def turned(mesh):
    """The same surface with its other side outside."""
    return mesh[0], [(a, c, b) for a, b, c in mesh[1]]


def two_faces(side, other_diagonal=False):
    """A sheet with two faces that have the same points, and the same edges or other ones."""
    return joined(flat_sheet(side), turned(flat_sheet(side, other_diagonal)))


def soup(mesh):
    """Each triangle alone, drawn together so that no two have a point in common."""
    points, triangles = [], []
    for triangle in mesh[1]:
        corners = [mesh[0][corner] for corner in triangle]
        middle = [sum(corner[axis] for corner in corners) / 3 for axis in range(3)]
        triangles.append(tuple(range(len(points), len(points) + 3)))
        points += [tuple(0.8 * corner[axis] + 0.2 * middle[axis] for axis in range(3)) for corner in corners]
    return points, triangles


def three_wings(side):
    """Three sheets that meet at one edge, so its edges have three triangles each."""
    sheet = flat_sheet(side)
    turn = lambda angle: ([(x * math.cos(angle), y, x * math.sin(angle)) for x, y, _ in sheet[0]], sheet[1])
    return joined(turn(0.0), turn(2.0), turn(4.0))


def stairs(count):
    """Cubes that meet at edges alone: four triangles an edge there."""
    return cubes({(i, j, i) for i in range(2 * count) for j in range(count)})
