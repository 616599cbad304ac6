#!/usr/bin/env python3
"""Makes a mesh of each sample's finest frame, and fails where the mesh isn't the frame.

The program is that of `tools/readme_runs.py`, and the mesh is what `tools/frame_to_obj.py` makes. It has to have the
frame's triangles, in their order, and the open edges that the frame and the sample's accepted line tell of.
"""
import collections
import subprocess
import sys

from readme_runs import TOP, ran

FINEST = "0 0 0 65536 1 4294967295".split()


def triangles_of(mesh):
    """The triangles of an OBJ mesh, as nine numbers each."""
    points, triangles = [], []
    for kind, *numbers in (line.split() for line in mesh.splitlines()):
        if kind == "v":
            points.append([int(word) for word in numbers])
        elif kind == "f":
            triangles.append([place for word in numbers for place in points[int(word) - 1]])
    return triangles


def open_edges(triangles):
    """How many pairs of points have edges that don't cancel."""
    nets = collections.Counter()
    for numbers in triangles:
        corners = [tuple(numbers[at : at + 3]) for at in (0, 3, 6)]
        for start, end in zip(corners, corners[1:] + corners[:1]):
            nets[min(start, end), max(start, end)] += 1 if start < end else -1
    return sum(net != 0 for net in nets.values())


def fault_of(sample):
    """What is wrong with the mesh of the sample, or None."""
    accepted = ran(["check", str(sample)]).split()
    text = ran(["full", str(sample), *FINEST])
    frame = text.decode().splitlines()
    mesh = subprocess.run([sys.executable, TOP / "tools" / "frame_to_obj.py"], input=text, stdout=subprocess.PIPE,
                          check=True).stdout.decode()
    triangles = triangles_of(mesh)
    if triangles != [[int(word) for word in line.split()] for line in frame[4:]]:
        return "its triangles aren't the frame's"
    told = {int(frame[0].split()[-1]), int(accepted[-1])}
    if told != {open_edges(triangles)}:
        return f"it has {open_edges(triangles)} open edges, and {told} are told"
    return None


def main():
    samples = sorted((TOP / "samples").glob("*.bmtg"))
    faults = [(sample, fault) for sample in samples if (fault := fault_of(sample))]
    for sample, fault in faults:
        print(f"the mesh of {sample.name}: {fault}", file=sys.stderr)
    print(f"samples: {len(samples) - len(faults)} meshes are their frames, {len(faults)} aren't")
    return 1 if faults or not samples else 0


if __name__ == "__main__":
    sys.exit(main())
