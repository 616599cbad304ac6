"""What the page needs of a patch file besides bodies: counts, sizes, levels, and the root's ball (docs/FORMAT.md)."""
import pathlib
import struct


class PatchIndex:
    """Of a file that the core has accepted; nothing is checked here."""

    def __init__(self, path):
        with open(path, "rb") as file:
            _, self.version, _, nodes, patches = struct.unpack("<4sHHII", file.read(16))
            self.nodes = list(struct.iter_unpack("<iiiII", file.read(20 * nodes)))
            self.patches = list(struct.iter_unpack("<IIHH", file.read(12 * patches)))
        self.name = pathlib.Path(path).name
        point, before = (12, 0) if self.version == 1 else (6, 12)
        self.sizes = [before + point * points + 6 * triangles for _, _, points, triangles in self.patches]
        heads = {head for _, head, _, _ in self.patches}
        self.root = next(node for node in range(nodes) if node not in heads)
        self.levels = self.find_levels()

    def find_levels(self):
        """Of each node the length of the longest walk that ends there."""
        leaving, left, levels = [[] for _ in self.nodes], [0] * len(self.nodes), [0] * len(self.nodes)
        for tail, head, _, _ in self.patches:
            leaving[tail].append(head)
            left[head] += 1
        ready = [self.root]
        while ready:
            node = ready.pop()
            for head in leaving[node]:
                levels[head] = max(levels[head], levels[node] + 1)
                left[head] -= 1
                if left[head] == 0:
                    ready.append(head)
        return levels

    def record(self, patch, body):
        """What a tab is sent of a patch: a head of 16 bytes, the body, and bytes 0 up to a multiple of four, so that
        the page can look at the numbers in place."""
        tail, _, points, triangles = self.patches[patch]
        head = struct.pack("<IIHHHH", patch, len(body), points, triangles, self.version, self.levels[tail])
        return head + body + bytes(-len(body) % 4)

    def summary(self):
        x, y, z, radius, _ = self.nodes[self.root]
        levels = 1 + max(self.levels[tail] for tail, *_ in self.patches)
        return {"file": self.name, "nodes": len(self.nodes), "patches": len(self.patches), "bytes": sum(self.sizes),
                "centre": [x, y, z], "radius": radius, "levels": levels}
