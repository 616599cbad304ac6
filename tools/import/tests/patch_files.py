"""Reads a patch file again, by docs/FORMAT.md and not by the importer's own code, and says what it holds."""
import collections
import struct


class PatchFile:
    """Nodes are (x, y, z, radius, error), patches (tail, head), and bodies lists of triangles, each three points."""

    def __init__(self, path):
        data = path.read_bytes()
        magic, self.version, zero, nodes, patches = struct.unpack_from("<4sHHII", data)
        assert magic == b"BMTG" and zero == 0, "that is no patch file"
        self.nodes = [struct.unpack_from("<3i2I", data, 16 + 20 * v) for v in range(nodes)]
        fields = [struct.unpack_from("<2I2H", data, 16 + 20 * nodes + 12 * p) for p in range(patches)]
        self.patches = [field[:2] for field in fields]
        self.bodies, at = [], 16 + 20 * nodes + 12 * patches
        for _, _, points, triangles in fields:
            body, at = self.body(data, at, points, triangles)
            self.bodies.append(body)
        assert at == len(data), "the bodies end elsewhere than the file"

    def body(self, data, at, points, triangles):
        if self.version == 1:
            places = list(struct.iter_unpack("<3i", data[at : at + 12 * points]))
            at += 12 * points
        else:
            origin = struct.unpack_from("<3i", data, at)
            offsets = struct.iter_unpack("<3H", data[at + 12 : at + 12 + 6 * points])
            places = [tuple(map(sum, zip(origin, offset))) for offset in offsets]
            at += 12 + 6 * points
        corners = struct.iter_unpack("<3H", data[at : at + 6 * triangles])
        return [tuple(places[corner] for corner in triangle) for triangle in corners], at + 6 * triangles

    def sinks(self):
        return set(range(len(self.nodes))) - {tail for tail, _ in self.patches}

    def finest(self):
        """The frame of all nodes: what leads into a sink."""
        sinks = self.sinks()
        return [triangle for (_, head), body in zip(self.patches, self.bodies) if head in sinks for triangle in body]

    def base(self):
        roots = set(range(len(self.nodes))) - {head for _, head in self.patches}
        return [triangle for (tail, _), body in zip(self.patches, self.bodies) if tail in roots for triangle in body]


def nets_of(triangles):
    """The pairs of points whose edges don't cancel, with how often one direction stands there more than the other."""
    nets = collections.Counter()
    for corners in triangles:
        for start, end in zip(corners, corners[1:] + corners[:1]):
            nets[min(start, end), max(start, end)] += 1 if start < end else -1
    return {pair: net for pair, net in nets.items() if net}


def turned_to_least(triangle):
    first = triangle.index(min(triangle))
    return triangle[first:] + triangle[:first]


def in_grid(mesh, told):
    """What the importer should make of a mesh: points rounded, flat triangles dropped, and each other one once."""
    half_up = lambda value: int(abs(value) + 0.5) * (1 if value > 0 else -1)
    single = lambda value: struct.unpack("<f", struct.pack("<f", value))[0]
    points = [tuple(half_up((single(value) - offset) / told["unit"]) for value, offset in zip(point, told["offset"]))
              for point in mesh[0]]
    triangles = [tuple(points[corner] for corner in triangle) for triangle in mesh[1]]
    return {turned_to_least(triangle) for triangle in triangles if len(set(triangle)) == 3}
