"""Small patch files that are made at random and accepted: a surface whose regions are cut finer, node after node."""

import struct

SIDE = 12
GREATEST_ERROR = 4000


class Region:
    """A patch: triangles that one node made, until another one takes them."""

    def __init__(self, tail, triangles):
        self.tail, self.head, self.triangles = tail, None, triangles


def random_file(rng, node_count, version):
    """The bytes of a file of so many nodes, of which the first is the root and the last the sink."""
    regions = parts_of(rng, 0, [random_triangle(rng) for _ in range(rng.randint(1, 8))])
    levels, errors = [0], [rng.randint(0, GREATEST_ERROR)]
    for node in range(1, node_count - 1):
        waiting = [region for region in regions if region.head is None]
        taken = rng.sample(waiting, min(len(waiting), rng.randint(1, 3)))
        for region in taken:
            region.head = node
        levels.append(1 + max(levels[region.tail] for region in taken))
        least = min(errors[region.tail] for region in taken)
        errors.append(rng.choice([least, least, least, rng.randint(0, least)]))
        regions += parts_of(rng, node, cut_finer(rng, [t for region in taken for t in region.triangles]))
    for region in regions:
        region.head = node_count - 1 if region.head is None else region.head
    rng.shuffle(regions)
    return file_of(rng, levels, errors, regions, version)


def random_point(rng):
    return tuple(rng.randint(0, SIDE) for _ in range(3))


def random_triangle(rng):
    corners = set()
    while len(corners) < 3:
        corners.add(random_point(rng))
    return tuple(rng.sample(sorted(corners), 3))


def cut_finer(rng, triangles):
    """The same border: some of the triangles are cut into three by a new point."""
    finer = []
    for a, b, c in triangles:
        m = random_point(rng)
        if m in (a, b, c) or rng.random() < 0.5 or len(triangles) > 30:
            finer.append((a, b, c))
        else:
            finer += [(a, b, m), (b, c, m), (c, a, m)]
    return finer


def parts_of(rng, tail, triangles):
    """The triangles dealt out to one patch or several."""
    parts = [[] for _ in range(rng.randint(1, 4))]
    for triangle in triangles:
        rng.choice(parts).append(triangle)
    return [Region(tail, part) for part in parts if part]


def file_of(rng, levels, errors, regions, version):
    bodies = [body_of(region.triangles, version) for region in regions]
    data = struct.pack("<4sHHII", b"BMTG", version, 0, len(levels) + 1, len(regions))
    deepest = max(levels)
    for level, error in zip(levels, errors):
        centre = [SIDE // 2 + rng.randint(-10, 10) for _ in range(3)]
        data += struct.pack("<iiiII", *centre, 40 * (deepest - level) + rng.randint(1, 4), error)
    data += struct.pack("<iiiII", 0, 0, 0, 0, 0)
    for region, (points, _) in zip(regions, bodies):
        data += struct.pack("<IIHH", region.tail, region.head, points, len(region.triangles))
    return data + b"".join(body for _, body in bodies)


def body_of(triangles, version):
    """How many points a patch has, and its bytes."""
    points = list(dict.fromkeys(point for triangle in triangles for point in triangle))
    if version == 1:
        data = b"".join(struct.pack("<iii", *point) for point in points)
    else:
        origin = [min(point[axis] for point in points) for axis in range(3)]
        offsets = [[p - o for p, o in zip(point, origin)] for point in points]
        data = struct.pack("<iii", *origin) + b"".join(struct.pack("<HHH", *offset) for offset in offsets)
    places = {point: place for place, point in enumerate(points)}
    return len(points), data + b"".join(struct.pack("<HHH", *(places[p] for p in triangle)) for triangle in triangles)
