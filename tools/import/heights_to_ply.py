#!/usr/bin/env python3
"""Makes a mesh (PLY) of heights on a grid: .npy, .npz, a 16-bit PNG or an ESRI ASCII grid.

    tools/import/heights_to_ply.py [--open] [--step S] [--scale K] [--depth D] [--name KEY] IN OUT.ply

The first row of heights is the northern one, at the greatest y; x grows to the east and z upwards. Without --open the
mesh is closed by walls along its rim and a floor, so that the rim may be simplified too (docs/MAKING_FILES.md). A
square of which a corner has no height (NaN, or the grid's NODATA_value) is left out. Needs numpy, and PIL for PNG.
"""
import argparse
import pathlib
import sys

import numpy

NAME = "heights_to_ply: "


def read_ascii_grid(path):
    """Heights, steps east and north, and the place of the lower left corner, of an ESRI ASCII grid."""
    head, lines = {}, path.read_text().splitlines()
    while lines and lines[0].split() and lines[0].split()[0][0].isalpha() and lines[0].split()[0].lower() != "nan":
        key, value = lines.pop(0).split()
        head[key.lower()] = float(value)
    try:
        rows, columns = int(head["nrows"]), int(head["ncols"])
        step = head.get("cellsize")
        east, north = (step, step) if step is not None else (head["dx"], head["dy"])
    except KeyError as missing:
        sys.exit(f"{NAME}{path}: its head lacks {missing.args[0]}")
    try:
        heights = numpy.array(" ".join(lines).split(), dtype=float)
    except ValueError as fault:
        sys.exit(f"{NAME}{path}: {fault}")
    if heights.size != rows * columns:
        sys.exit(f"{NAME}{path}: it has {heights.size} heights, and its head says {rows} by {columns}")
    heights[heights == head.get("nodata_value", -9999.0)] = numpy.nan
    corner = tuple(head.get(axis + "llcorner", head.get(axis + "llcenter", 0.0)) for axis in "xy")
    return heights.reshape(rows, columns), (east, north), corner


def read_arrays(path, name):
    """The array of that name, or the only one with two axes."""
    with numpy.load(path) as arrays:
        names = [name] if name else [key for key in arrays.files if arrays[key].ndim == 2]
        if len(names) != 1 or names[0] not in arrays.files:
            sys.exit(f"{NAME}{path}: --name has to be one of {', '.join(arrays.files)}")
        return arrays[names[0]]


def read_picture(path):
    from PIL import Image
    Image.MAX_IMAGE_PIXELS = None
    with Image.open(path) as picture:
        if picture.mode not in ("I;16", "I;16B", "I", "L"):
            sys.exit(f"{NAME}{path}: it is no picture of 16 or 8 bits and one channel, but {picture.mode}")
        return numpy.array(picture)


def read_heights(path, name):
    """Heights as floating numbers with NaN where there is none, the steps, and the place of the corner."""
    kind = path.suffix.lower()
    if kind in (".asc", ".txt", ".grd"):
        return read_ascii_grid(path)
    if kind == ".npy":
        heights = numpy.load(path)
    elif kind == ".npz":
        heights = read_arrays(path, name)
    elif kind == ".png":
        heights = read_picture(path)
    else:
        sys.exit(f"{NAME}{path}: it reads .npy, .npz, .png and .asc")
    if heights.ndim != 2 or heights.dtype.kind not in "iuf":
        sys.exit(f"{NAME}{path}: it takes numbers with two axes, not {heights.dtype} with {heights.ndim}")
    return heights.astype(float), (1.0, 1.0), (0.0, 0.0)


def squares_of(heights):
    """The corners of each square that has all four: south west, south east, north east, north west."""
    number = numpy.arange(heights.size).reshape(heights.shape)
    there = numpy.isfinite(heights)
    whole = there[:-1, :-1] & there[:-1, 1:] & there[1:, :-1] & there[1:, 1:]
    corners = (number[1:, :-1], number[1:, 1:], number[:-1, 1:], number[:-1, :-1])
    return [corner[whole] for corner in corners]


def surface(a, b, c, d):
    """The two triangles of each square, in the order of the squares."""
    return numpy.stack([a, b, c, a, c, d], -1).reshape(-1, 3)


def rim_walls(points, heights, floor):
    """Walls and floor of a grid without gaps; the floor is a fan round its middle. A floor of two triangles would be
    less, but walls that all lead to four corners are thin triangles, which a simplifier can't take away."""
    number = numpy.arange(heights.size).reshape(heights.shape)
    # Anticlockwise from the south west, seen from above.
    rim = numpy.concatenate([number[-1, :-1], number[:0:-1, -1], number[0, :0:-1], number[:-1, 0]])
    below = points[rim]
    below[:, 2] = floor
    middle = below.mean(axis=0, keepdims=True)
    low = len(points) + numpy.arange(len(rim))
    next_low, next_rim = numpy.roll(low, -1), numpy.roll(rim, -1)
    triangles = [numpy.stack([low, next_rim, rim], -1), numpy.stack([low, next_low, next_rim], -1),
                 numpy.stack([numpy.full(len(rim), len(points) + len(rim)), next_low, low], -1)]
    return numpy.concatenate([points, below, middle]), numpy.concatenate(triangles)


def mirrored_floor(points, squares, floor):
    """Walls and floor of a grid with gaps: the floor has the same squares seen from below, and walls join the rims."""
    a, b, c, d = squares
    first = len(points)
    starts, ends = numpy.concatenate([a, b, c, d]), numpy.concatenate([b, c, d, a])
    keys, back = starts * first + ends, ends * first + starts
    rim = ~numpy.isin(keys, back)
    starts, ends = starts[rim], ends[rim]
    walls = numpy.concatenate([numpy.stack([first + starts, first + ends, ends], -1),
                               numpy.stack([first + starts, ends, starts], -1)])
    below = points.copy()
    below[:, 2] = floor
    under = surface(*(first + corner for corner in (a, d, c, b)))
    return numpy.concatenate([points, below]), numpy.concatenate([under, walls])


def mesh_of(heights, steps, scale, depth, is_open):
    """The points, x, y and z, and the triangles of the heights."""
    squares = squares_of(heights)
    if squares[0].size == 0:
        sys.exit(NAME + "there is no square with four heights")
    rows, columns = heights.shape
    y, x = numpy.meshgrid((rows - 1 - numpy.arange(rows)) * steps[1], numpy.arange(columns) * steps[0], indexing="ij")
    points = numpy.stack([x, y, numpy.nan_to_num(heights) * scale], -1).reshape(-1, 3)
    triangles = surface(*squares)
    if not is_open:
        used = points[numpy.unique(triangles), 2]
        floor = used.min() - (depth if depth is not None else max(used.max() - used.min(), steps[0]) / 10)
        if squares[0].size == (rows - 1) * (columns - 1):
            points, more = rim_walls(points, heights, floor)
        else:
            points, more = mirrored_floor(points, squares, floor)
        triangles = numpy.concatenate([triangles, more])
    numbers, places = numpy.unique(triangles, return_inverse=True)
    return points[numbers], places.reshape(-1, 3)


def write_ply(path, points, triangles):
    faces = numpy.empty(len(triangles), dtype=[("count", "u1"), ("corners", "<i4", 3)])
    faces["count"], faces["corners"] = 3, triangles
    with open(path, "wb") as out:
        out.write((f"ply\nformat binary_little_endian 1.0\nelement vertex {len(points)}\n"
                   f"property float x\nproperty float y\nproperty float z\nelement face {len(triangles)}\n"
                   "property list uchar int vertex_indices\nend_header\n").encode())
        out.write(points.astype("<f4").tobytes())
        out.write(faces.tobytes())


def read_words():
    parser = argparse.ArgumentParser(description="Makes a mesh of heights: .npy, .npz, 16-bit PNG, ESRI ASCII grid.")
    parser.add_argument("--open", action="store_true", help="no walls and no floor")
    parser.add_argument("--step", type=float, help="from height to height, in place of the grid's own or 1")
    parser.add_argument("--scale", type=float, default=1.0, help="by which heights are multiplied")
    parser.add_argument("--depth", type=float, help="of the floor below the least height; a tenth of the heights' span")
    parser.add_argument("--name", help="which array of a .npz")
    parser.add_argument("heights", metavar="IN", type=pathlib.Path)
    parser.add_argument("mesh", metavar="OUT.ply", type=pathlib.Path)
    words = parser.parse_args()
    if any(value is not None and not value > 0 for value in (words.step, words.depth)) or words.scale == 0:
        parser.error("--step and --depth are above 0, and --scale isn't 0")
    return words


def main():
    words = read_words()
    try:
        heights, steps, corner = read_heights(words.heights, words.name)
        if words.step is not None:
            steps = (words.step, words.step)
        points, triangles = mesh_of(heights, steps, words.scale, words.depth, words.open)
        write_ply(words.mesh, points, triangles)
    except (OSError, ValueError) as fault:
        sys.exit(f"{NAME}{fault}")
    rows, columns = heights.shape
    print(f"{words.mesh}: {rows} rows of {columns} heights, {len(points)} points, {len(triangles)} triangles; x and y "
          f"0 is ({corner[0]:g}, {corner[1]:g}) of the grid")


if __name__ == "__main__":
    main()
