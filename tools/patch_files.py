"""A patch file as lists, its graph, and the round of a view over it; docs/FORMAT.md and docs/MODEL.md have the rules."""

import math
import struct
from collections import Counter
from dataclasses import dataclass


@dataclass
class Node:
    centre: tuple
    radius: int
    error: int


@dataclass
class Patch:
    tail: int
    head: int
    size: int
    triangles: list  # of three points each


@dataclass
class View:
    eye: tuple
    focal: int
    tau: int
    limit: int


class Mesh:
    """The lists of an accepted patch file; what isn't accepted isn't told apart here, `check` does that."""

    def __init__(self, data):
        version, _, node_count, patch_count = struct.unpack_from("<HHII", data, 4)
        at = 16
        self.nodes = []
        for _ in range(node_count):
            x, y, z, radius, error = struct.unpack_from("<iiiII", data, at)
            self.nodes.append(Node((x, y, z), radius, error))
            at += 20
        fields = [struct.unpack_from("<IIHH", data, at + 12 * p) for p in range(patch_count)]
        at += 12 * patch_count
        self.patches = []
        for tail, head, points, triangles in fields:
            start = at
            corners, at = read_points(data, at, version, points)
            faces = []
            for _ in range(triangles):
                faces.append(tuple(corners[c] for c in struct.unpack_from("<HHH", data, at)))
                at += 6
            self.patches.append(Patch(tail, head, at - start, faces))
        self.incoming = [[] for _ in self.nodes]
        self.outgoing = [[] for _ in self.nodes]
        for number, patch in enumerate(self.patches):
            self.incoming[patch.head].append(number)
            self.outgoing[patch.tail].append(number)
        self.root = next(v for v, patches in enumerate(self.incoming) if not patches)
        self.base = self.outgoing[self.root]
        self.levels = self.find_levels()

    def find_levels(self):
        levels = [0] * len(self.nodes)
        left = [len(patches) for patches in self.incoming]
        ready = [self.root]
        while ready:
            node = ready.pop()
            for patch in self.outgoing[node]:
                head = self.patches[patch].head
                levels[head] = max(levels[head], levels[node] + 1)
                left[head] -= 1
                if left[head] == 0:
                    ready.append(head)
        return levels

    def score(self, view, node):
        n = self.nodes[node]
        square = sum((e - c) ** 2 for e, c in zip(view.eye, n.centre))
        return n.error * view.focal // max(1, math.isqrt(square) - n.radius)

    def order(self, view):
        """The inner nodes that the view wants: by score, then level, then number."""
        inner = [v for v in range(len(self.nodes)) if v != self.root and self.outgoing[v]]
        scores = {v: self.score(view, v) for v in inner}
        wanted = [v for v in inner if scores[v] > view.tau]
        return sorted(wanted, key=lambda v: (-scores[v], self.levels[v], v))

    def round(self, view, answer):
        """The cut and the tries of a round whose tries are answered by `answer(patch)`; None where it has no answer."""
        cut, tries = {self.root}, []
        triangles = sum(len(self.patches[p].triangles) for p in self.base)
        for node in self.order(view):
            grown = triangles + self.gain(node)
            if grown > view.limit or any(self.patches[p].tail not in cut for p in self.incoming[node]):
                continue
            for patch in self.outgoing[node]:
                epoch = answer(patch)
                if epoch is None:
                    return None
                tries.append((patch, epoch))
                if epoch % 2 == 0:
                    break
            else:
                cut.add(node)
                triangles = grown
        return cut, tries

    def gain(self, node):
        count = lambda patches: sum(len(self.patches[p].triangles) for p in patches)
        return count(self.outgoing[node]) - count(self.incoming[node])

    def frame(self, cut):
        return [p for p, patch in enumerate(self.patches) if patch.tail in cut and patch.head not in cut]

    def frame_lines(self, session, number, cut, tries):
        patches = self.frame(cut)
        faces = [face for p in patches for face in self.patches[p].triangles]
        yield (
            f"frame {session} {number} nodes {len(cut)} patches {len(patches)}"
            f" triangles {len(faces)} open {open_edges(faces)}"
        )
        yield " ".join(["cut", *map(str, sorted(cut))])
        yield tries_line(tries)
        yield " ".join(["patches", *map(str, patches)])
        for face in faces:
            yield " ".join(str(number) for point in face for number in point)


def read_points(data, at, version, count):
    if version == 1:
        return [struct.unpack_from("<iii", data, at + 12 * i) for i in range(count)], at + 12 * count
    origin = struct.unpack_from("<iii", data, at)
    offsets = [struct.unpack_from("<HHH", data, at + 12 + 6 * i) for i in range(count)]
    return [tuple(o + d for o, d in zip(origin, offset)) for offset in offsets], at + 12 + 6 * count


def open_edges(faces):
    """How many pairs of points have edges that don't cancel."""
    nets = Counter()
    for a, b, c in faces:
        for start, end in ((a, b), (b, c), (c, a)):
            nets[min(start, end), max(start, end)] += 1 if start < end else -1
    return sum(1 for net in nets.values() if net)


def tries_line(tries):
    return " ".join(["tries", *(f"{patch}:{epoch}" for patch, epoch in tries)])
