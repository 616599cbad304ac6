"""A patch file of hills: tiles, each of which a node makes finer without moving its rim."""
import math
import struct

SIDE = 16  # squares along a tile
STEP = 64  # units of a square


def height(x, y):
    return round(700 * (math.sin(x / 2100) + math.cos(y / 1700)) + 160 * math.sin((x + 2 * y) / 430))


def fine_tile(column, row):
    """The points of a tile, and two triangles for each of its squares."""
    points = []
    for j in range(SIDE + 1):
        for i in range(SIDE + 1):
            x, y = STEP * (SIDE * column + i), STEP * (SIDE * row + j)
            points.append((x, y, height(x, y)))
    triangles = []
    for j in range(SIDE):
        for i in range(SIDE):
            a = j * (SIDE + 1) + i
            triangles += [(a, a + 1, a + SIDE + 2), (a, a + SIDE + 2, a + SIDE + 1)]
    return points, triangles


def coarse_tile(points):
    """The rim of a tile, and its middle with a triangle to each of the rim's edges."""
    row = SIDE + 1
    last = row * row - 1
    rim = [*range(SIDE), *range(SIDE, last, row), *range(last, last - SIDE, -1), *range(last - SIDE, 0, -row)]
    corners = [points[place] for place in rim] + [points[last // 2]]
    return corners, [(i, (i + 1) % len(rim), len(rim)) for i in range(len(rim))]


def hills(columns, rows):
    """Its bytes, of version 2. The root leads to a node for each tile, and each of these to the sink."""
    tiles = [fine_tile(column, row) for row in range(rows) for column in range(columns)]
    count = len(tiles)
    middle = (STEP * SIDE * columns // 2, STEP * SIDE * rows // 2, 0)
    nodes = [(*middle, 1 << 20, 400)]
    nodes += [(*points[len(points) // 2], STEP * SIDE, 300) for points, _ in tiles] + [(0, 0, 0, 0, 0)]
    # The root's ball holds all the others, but no more.
    nodes[0] = (*middle, max(math.ceil(math.dist(middle, node[:3])) for node in nodes[1:-1]) + STEP * SIDE + 1, 400)
    patches = [(0, 1 + tile, *coarse_tile(points)) for tile, (points, _) in enumerate(tiles)]
    patches += [(1 + tile, 1 + count, *both) for tile, both in enumerate(tiles)]
    data = [struct.pack("<4sHHII", b"BMTG", 2, 0, len(nodes), len(patches))]
    data += [struct.pack("<iiiII", *node) for node in nodes]
    data += [struct.pack("<IIHH", tail, head, len(points), len(corners)) for tail, head, points, corners in patches]
    for _, _, points, corners in patches:
        origin = [min(axis) for axis in zip(*points)]
        data.append(struct.pack("<iii", *origin))
        data += [struct.pack("<HHH", *(place - low for place, low in zip(point, origin))) for point in points]
        data += [struct.pack("<HHH", *triangle) for triangle in corners]
    return b"".join(data)
