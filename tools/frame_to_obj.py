#!/usr/bin/env python3
"""Makes a Wavefront OBJ mesh of a frame, to look at it in any mesh program.

    ./jichallay full samples/square.bmtg 2 2 104 100 9 100 | tools/frame_to_obj.py > frame.obj
    ./jichallay play samples/square.bmtg 144 < samples/two_sessions.txt | tools/frame_to_obj.py 2 > frame.obj

It reads standard input, what `base`, `full`, `cull` or `play` prints, and takes the first frame of it, or the K-th. A
frame is four lines of words and then a line of nine numbers for each triangle. It is a help for people, and nothing is
proved of it.
"""
import argparse
import sys


def frame_of(lines, number):
    """The lines of the frame of that number, counted from 1."""
    starts = [at for at, line in enumerate(lines) if line.startswith("frame ")]
    if number > len(starts):
        sys.exit(f"frame_to_obj: there are {len(starts)} frames, so none is number {number}")
    start = starts[number - 1]
    end = start + 4 + int(lines[start].split()[8])
    if end > len(lines):
        sys.exit("frame_to_obj: the frame is cut off")
    return lines[start:end]


def mesh_of(frame):
    """The points of a frame, each once, and its triangles as three numbers of points, counted from 1."""
    places, triangles = {}, []
    for line in frame[4:]:
        numbers = [int(word) for word in line.split()]
        if len(numbers) != 9:
            sys.exit(f"frame_to_obj: that is no triangle: {line}")
        corners = [tuple(numbers[at : at + 3]) for at in (0, 3, 6)]
        triangles.append([places.setdefault(corner, len(places) + 1) for corner in corners])
    return places, triangles


def main():
    parser = argparse.ArgumentParser(description="Makes an OBJ mesh of a frame that it reads from standard input.")
    parser.add_argument("number", metavar="K", nargs="?", type=int, default=1, help="which frame of the input, from 1")
    number = max(1, parser.parse_args().number)
    frame = frame_of(sys.stdin.read().splitlines(), number)
    places, triangles = mesh_of(frame)
    print(f"# {frame[0]}")
    for x, y, z in places:
        print(f"v {x} {y} {z}")
    for a, b, c in triangles:
        print(f"f {a} {b} {c}")


if __name__ == "__main__":
    main()
