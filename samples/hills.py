#!/usr/bin/env python3
"""Draws hills under an evening sky and writes the picture to standard output: 320x192 samples, 4:2:2, 10 bits, planar,
each sample in two bytes, the low one first."""
import math
import struct
import sys

WIDTH, HEIGHT = 320, 192


def ridge(layer, x):
    """The row at which a ridge of hills begins: layer 0 is the farthest."""
    base = 84 + 30 * layer
    return base + (16 - 3 * layer) * math.sin(x / (31 - 6 * layer) + 2 * layer) + 5 * math.sin(x / 11 + layer)


def colour(x, y):
    """Luma, blue difference and red difference, each 0 to 1, of the sample x, y."""
    for layer in (2, 1, 0):
        top = ridge(layer, x)
        if y >= top:
            shade = 0.42 - 0.12 * layer + 0.03 * math.sin(x / 3 + y / 2)
            return shade + 0.0008 * (y - top), 0.52 - 0.04 * layer, 0.47 - 0.02 * layer
    sun = math.hypot(x - 232, y - 44)
    if sun < 17:
        return 0.9, 0.34, 0.6
    glow = math.exp(-sun / 60)
    return 0.45 + 0.3 * y / HEIGHT + 0.2 * glow, 0.58 - 0.15 * glow, 0.48 + 0.12 * glow


def sample(value):
    return struct.pack("<H", max(64, min(940, round(64 + 876 * value))))


def main():
    rows = [[colour(x, y) for x in range(WIDTH)] for y in range(HEIGHT)]
    out = bytearray()
    for row in rows:
        for point in row:
            out += sample(point[0])
    for component in (1, 2):
        for row in rows:
            for x in range(0, WIDTH, 2):
                out += sample((row[x][component] + row[x + 1][component]) / 2)
    sys.stdout.buffer.write(out)


main()
