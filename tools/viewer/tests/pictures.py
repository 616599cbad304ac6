"""Reads a screenshot: PNG of 8 bits a channel, as the browser makes it."""
import struct
import zlib


def pixels_of(data):
    """The picture's width, and its pixels as tuples of red, green and blue, row by row."""
    at, packed = 8, b""
    while at < len(data):
        length, kind = struct.unpack_from(">I4s", data, at)
        part = data[at + 8:at + 8 + length]
        if kind == b"IHDR":
            width, _, _, colours = struct.unpack_from(">IIBB", part)
        elif kind == b"IDAT":
            packed += part
        at += 12 + length
    channels = {2: 3, 6: 4}[colours]
    rows, before = zlib.decompress(packed), bytearray(channels * width)
    found = []
    for begin in range(0, len(rows), channels * width + 1):
        row = bytearray(rows[begin + 1:begin + 1 + channels * width])
        unfilter(rows[begin], row, before, channels)
        found += [tuple(row[x:x + 3]) for x in range(0, len(row), channels)]
        before = row
    return width, found


def unfilter(kind, row, before, channels):
    if kind == 0:
        return
    for place in range(len(row)):
        left = row[place - channels] if place >= channels else 0
        corner = before[place - channels] if place >= channels else 0
        row[place] = (row[place] + guess(kind, left, before[place], corner)) & 255


def guess(kind, left, above, corner):
    if kind == 1:
        return left
    if kind == 2:
        return above
    if kind == 3:
        return (left + above) // 2
    near = left + above - corner
    return min((abs(near - it), place, it) for place, it in enumerate((left, above, corner)))[2]


def share_drawn(data, ground=(20, 24, 29), panel=0):
    """Which share of the pixels right of the panel isn't the ground."""
    width, pixels = pixels_of(data)
    seen = [pixel for place, pixel in enumerate(pixels) if place % width >= panel]
    return sum(max(abs(a - b) for a, b in zip(pixel, ground)) > 12 for pixel in seen) / len(seen)
