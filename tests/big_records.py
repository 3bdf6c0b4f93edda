#!/usr/bin/env python3
"""1,000 large records for `probe`, always the same: most of the work is to read their floats.

  big_records.py > RECORDS

Height grids of 31 by 32, distance grids of 10 by 10 by 10, and meshes of 330 vertices of which a few make triangles, in turn.
"""
import math
import random
import struct
import sys

made = random.Random(108)


def floats(numbers):
    return struct.pack(f">{len(numbers)}d", *numbers)


def words(numbers):
    return struct.pack(f">{len(numbers)}I", *numbers)


def between(low, high, count):
    return [low + (high - low) * made.random() for _ in range(count)]


def ray(target, height):
    """From above, at a slant, to a target."""
    x, y = between(-0.5, 0.5, 2)
    length = math.sqrt(x * x + y * y + 1.0)
    direction = [x / length, y / length, -1.0 / length]
    origin = [target[0] - x * height, target[1] - y * height, target[2] + height]
    return floats(origin + direction + [4.0 * height])


def heights():
    target = between(1.0, 29.0, 2) + [0.0]
    return 4, ray(target, 8.0), words([31, 32]) + floats([1.0, 1.0] + between(-1.0, 1.0, 31 * 32))


def distances():
    """Straight down, so that no sample is rounded out of the grid."""
    down = floats(between(1.0, 8.0, 2) + [20.0, 0.0, 0.0, -1.0, 40.0])
    shape = words([10, 10, 10]) + floats([0.0, 0.0, 0.0, 1.0, 1.0, 1.0])
    return 5, down, shape + floats(between(-0.2, 1.0, 1000))


def mesh():
    vertices = between(-4.0, 4.0, 3 * 330)
    indices = [made.randrange(330) for _ in range(9)]
    return 3, ray(between(-1.0, 1.0, 3), 8.0), words([330, 3]) + floats(vertices) + words(indices)


for number in range(1000):
    kind, line, shape = (heights, distances, mesh, distances)[number % 4]()
    body = bytes([1, kind]) + line + shape
    sys.stdout.buffer.write(struct.pack(">I", len(body)) + body)
