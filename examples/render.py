#!/usr/bin/env python3
"""Renders the sample picture of a plate at an angle: width and height of two bytes each, little-endian, then the gray bytes.

usage: render.py VERSION WIDTH HEIGHT PITCH TURN TILT SEED > FILE
PITCH is the size of a module in pixels, TURN an angle in degrees, TILT the relative shrinking of the far edge (0 for none).
plate.gray is the output of: render.py 3 200 200 4.6 17 0.12 1"""
import math, random, struct, sys

version, width, height = (int(a) for a in sys.argv[1:4])
pitch, turn, tilt = (float(a) for a in sys.argv[4:7])
chance = random.Random(int(sys.argv[7]))
side = 17 + 4 * version


def ring(x, y, cx, cy):
    return max(abs(x - cx), abs(y - cy))


def dark(x, y):
    """The module (x, y) of the plate: finders in three corners, the alignment marker from version 2 on, chance elsewhere."""
    for cx, cy in ((3, 3), (side - 4, 3), (3, side - 4)):
        d = ring(x, y, cx, cy)
        if d <= 4:
            return d in (0, 1, 3)
    d = ring(x, y, side - 7, side - 7)
    if version >= 2 and d <= 2:
        return d != 1
    return payload[y][x]


payload = [[chance.random() < 0.5 for _ in range(side)] for _ in range(side)]
modules = [[dark(x, y) for x in range(side)] for y in range(side)]
c, s = math.cos(math.radians(turn)), math.sin(math.radians(turn))


def light(px, py):
    """The light at a point of the picture: turned back, untilted, and looked up in the modules."""
    dx, dy = px - width / 2, py - height / 2
    u, v = (c * dx + s * dy) / pitch, (c * dy - s * dx) / pitch
    w = 1 / (1 - tilt * v / side)
    x, y = math.floor(u * w + side / 2), math.floor(v * w + side / 2)
    return 40 if 0 <= x < side and 0 <= y < side and modules[y][x] else 215


out = bytearray(struct.pack("<HH", width, height))
for y in range(height):
    for x in range(width):
        taps = [light(x + (i + 0.5) / 3, y + (j + 0.5) / 3) for i in range(3) for j in range(3)]
        out.append(max(0, min(255, round(sum(taps) / 9 + chance.gauss(0, 4)))))
sys.stdout.buffer.write(out)
