#!/usr/bin/env python3
"""Draws frames side by side, each as its triangles seen obliquely from the south, fine ones warmer, to a PNG.

    ./jichallay play FILE B0 < SCRIPT | tools/frames_picture.py OUT.png [K ..] [--eye X Y] ..

It reads what `play` prints, and takes the frames of the numbers K, counted from 1, or all. Each `--eye` marks a place
on the ground of one of them, in their order. It wants PIL (Debian's python3-pil). A help for people; nothing is proved
of it.
"""
import argparse
import math
import sys

from PIL import Image, ImageDraw

from frame_to_obj import frame_of

SIZE, SCALE, MARGIN = (620, 330), 2, 14
LIGHT = (-0.5, 0.45, 0.74)
FINE, COARSE = (226, 138, 62), (126, 150, 168)


def triangles_of(frame):
    """The corners of each triangle of a frame's lines."""
    for line in frame[4:]:
        numbers = [int(word) for word in line.split()]
        yield numbers[0:3], numbers[3:6], numbers[6:9]


def cross_of(a, b, c):
    u, v = [q - p for p, q in zip(a, b)], [q - p for p, q in zip(a, c)]
    return u[1] * v[2] - u[2] * v[1], u[2] * v[0] - u[0] * v[2], u[0] * v[1] - u[1] * v[0]


def size_of(triangle):
    """Twice the triangle's area, at least 1."""
    return max(1, math.sqrt(sum(x * x for x in cross_of(*triangle))))


class Panel:
    """Where one frame is drawn: its ground fills the width."""

    def __init__(self, triangles, left):
        points = [point for triangle in triangles for point in triangle]
        self.least = [min(point[axis] for point in points) for axis in range(3)]
        self.most = [max(point[axis] for point in points) for axis in range(3)]
        self.left = left
        self.zoom = (SIZE[0] - 2 * MARGIN) / (self.most[0] - self.least[0])
        sizes = sorted(math.log(size_of(triangle)) for triangle in triangles)
        self.finest, self.coarsest = sizes[len(sizes) // 50], sizes[-len(sizes) // 50]

    def place(self, point):
        x, y, z = (p - q for p, q in zip(point, self.least))
        bottom = SIZE[1] - MARGIN
        return ((self.left + MARGIN + x * self.zoom) * SCALE, (bottom - (0.55 * y + 1.3 * z) * self.zoom) * SCALE)

    def colour(self, triangle):
        light = max(0.0, sum(p * q for p, q in zip(cross_of(*triangle), LIGHT))) / size_of(triangle)
        part = (math.log(size_of(triangle)) - self.finest) / (self.coarsest - self.finest)
        part = min(1.0, max(0.0, part))
        return tuple(int((0.45 + 0.6 * light) * (p + (q - p) * part)) for p, q in zip(FINE, COARSE))

    def draw(self, canvas, triangles):
        for triangle in sorted(triangles, key=lambda it: -max(point[1] for point in it)):
            colour = self.colour(triangle)
            edge = tuple(part * 3 // 4 for part in colour) if size_of(triangle) * self.zoom ** 2 > 60 else None
            canvas.polygon([self.place(point) for point in triangle], fill=colour, outline=edge)

    def mark(self, canvas, eye):
        x, y = self.place((eye[0], eye[1], self.most[2]))
        canvas.ellipse([x - 12, y - 12, x + 12, y + 12], fill=(196, 60, 40), outline=(255, 255, 255), width=3)


def main():
    parser = argparse.ArgumentParser(description="Draws frames that it reads from standard input, side by side.")
    parser.add_argument("target", metavar="OUT.png")
    parser.add_argument("numbers", metavar="K", nargs="*", type=int, help="which frames, from 1")
    parser.add_argument("--eye", nargs=2, metavar=("X", "Y"), type=int, action="append", default=[])
    words = parser.parse_args()
    lines = sys.stdin.read().splitlines()
    numbers = words.numbers or range(1, 1 + sum(line.startswith("frame ") for line in lines))
    image = Image.new("RGB", (SIZE[0] * len(numbers) * SCALE, SIZE[1] * SCALE), (255, 255, 255))
    canvas = ImageDraw.Draw(image)
    for at, number in enumerate(numbers):
        triangles = list(triangles_of(frame_of(lines, number)))
        panel = Panel(triangles, at * SIZE[0])
        panel.draw(canvas, triangles)
        if at < len(words.eye):
            panel.mark(canvas, words.eye[at])
    image.resize((image.width // SCALE, image.height // SCALE), Image.LANCZOS).quantize(64).save(words.target, optimize=True)


if __name__ == "__main__":
    main()
