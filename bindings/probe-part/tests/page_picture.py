#!/usr/bin/env python3
"""Looks at a browser's picture of the page that page.sh makes: the colours of what it has to show, and where.

  page_picture.py PNG
"""
import struct
import sys
import zlib

data = open(sys.argv[1], "rb").read()
assert data[:8] == b"\x89PNG\r\n\x1a\n"
at, stream = 8, b""
while at < len(data):
    (length,) = struct.unpack(">I", data[at : at + 4])
    name, body = data[at + 4 : at + 8], data[at + 8 : at + 8 + length]
    if name == b"IHDR":
        width, height, bits, kind = struct.unpack(">IIBB", body[:10])
    elif name == b"IDAT":
        stream += body
    at += 12 + length
assert bits == 8 and kind in (2, 6)
step = 3 if kind == 2 else 4


def near(a, b, c):
    """The filter of Paeth: of left, above and left above the one nearest to left + above - left above."""
    p = a + b - c
    return min((abs(p - a), 0, a), (abs(p - b), 1, b), (abs(p - c), 2, c))[2]


def unfiltered(raw):
    """The rows' bytes."""
    before = bytearray(width * step)
    for row in range(height):
        start = row * (1 + width * step)
        how, line = raw[start], bytearray(raw[start + 1 : start + 1 + width * step])
        if how == 2:
            line = bytearray((a + b) & 255 for a, b in zip(line, before))
        elif how:
            for i in range(len(line)):
                left = line[i - step] if i >= step else 0
                corner = before[i - step] if i >= step else 0
                guess = {1: left, 3: (left + before[i]) // 2, 4: near(left, before[i], corner)}[how]
                line[i] = (line[i] + guess) & 255
        yield line
        before = line


# the first and last row of each colour, and how many pixels it has
COLOURS = {
    (200, 16, 46): "badge",  # of what needs a look
    (227, 244, 234): "complete",  # the badge of a complete list
    (208, 0, 0): "box",  # around what is not understood
    (232, 218, 190): "face",
}
seen = {what: [height, 0, 0] for what in COLOURS.values()}
for y, line in enumerate(unfiltered(zlib.decompress(stream))):
    for x in range(0, len(line), step):
        what = COLOURS.get(tuple(line[x : x + 3]))
        if what:
            first, _, count = seen[what]
            seen[what] = [min(first, y), y, count + 1]
for what, least in {"badge": 2000, "complete": 1000, "box": 200, "face": 50_000}.items():
    assert seen[what][2] >= least, (what, seen)
# what needs a look stands above what is complete, in the summary and below; the box lies on a face's picture
assert seen["badge"][0] < seen["complete"][0] and seen["badge"][1] < seen["complete"][1], seen
assert seen["face"][0] < seen["box"][0] and seen["box"][1] < seen["face"][1], seen
print("the page in a browser: red badges above green ones, and a red box on the face of the part that is not understood")
