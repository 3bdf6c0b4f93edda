#!/usr/bin/env python3
"""Looks at the pictures that `probe-part depth` draws of the top of examples/panel.stl, with zlib and an XML reader.

  depth_pictures.py PNG SVG

The panel is 200 by 100 mm, with a cup 13 mm deep about (50, 50) and a bore right through about (150, 50)
(examples/panel_stl.py); the octagons' widths across the flats are 35 and 8.
"""
import struct
import sys
import xml.etree.ElementTree
import zlib

png, svg = sys.argv[1:]

# the PNG: its chunks' check sums, its size, its pixels
data = open(png, "rb").read()
assert data[:8] == b"\x89PNG\r\n\x1a\n"
at, stream, names = 8, b"", []
while at < len(data):
    (length,) = struct.unpack(">I", data[at : at + 4])
    name, body = data[at + 4 : at + 8], data[at + 8 : at + 8 + length]
    assert struct.unpack(">I", data[at + 8 + length : at + 12 + length])[0] == zlib.crc32(name + body), name
    names.append(name)
    if name == b"IHDR":
        width, height, *rest = struct.unpack(">IIBBBBB", body)
        assert rest == [8, 2, 0, 0, 0]
    elif name == b"IDAT":
        stream += body
    at += 12 + length
assert names[0] == b"IHDR" and names[-1] == b"IEND" and b"IDAT" in names
rows = zlib.decompress(stream)
assert 10 * len(stream) < len(rows), "the picture is not packed"
assert len(rows) == height * (1 + 3 * width)
assert all(rows[row * (1 + 3 * width)] == 0 for row in range(height))


def pixel(x, y):
    start = y * (1 + 3 * width) + 1 + 3 * x
    return tuple(rows[start : start + 3])


# the panel's frame is the first dark line; within it the picture is 1000 by 500, five probes a millimetre
dark = (40, 40, 40)
left = next(x for x in range(width) if pixel(x, height // 2) == dark) + 1
top = next(y for y in range(height) if pixel(left + 10, y) == dark) + 1
colour = lambda x, y: pixel(left + int(5 * x), top + int(5 * (100 - y)))
face, cup, through = colour(5, 5), colour(50, 50), colour(150, 50)
assert len({face, cup, through, dark}) == 4
looked = 0
for x in range(1, 200):
    for y in range(1, 100):
        x_, y_ = x + 0.1, y - 0.1
        in_cup = max(abs(x_ - 50), abs(y_ - 50)) < 17.5 and abs(x_ - 50) + abs(y_ - 50) < 24.75
        in_bore = max(abs(x_ - 150), abs(y_ - 50)) < 4 and abs(x_ - 150) + abs(y_ - 50) < 5.625
        assert colour(x, y) == (cup if in_cup else through if in_bore else face), (x, y)
        looked += 1

# the SVG: well formed, two circles about the bores' middles, and what the legend says
tree = xml.etree.ElementTree.parse(svg).getroot()
name = "{http://www.w3.org/2000/svg}"
circles = [[float(c.get(key)) for key in ("cx", "cy", "r")] for c in tree.iter(name + "circle")]
wanted = [[50, 50, (17.5**2 + 7.25**2) ** 0.5], [150, 50, (4**2 + 1.625**2) ** 0.5]]
assert len(circles) == 2
for circle, want in zip(sorted(circles), wanted):
    assert all(abs(a - b) < 0.01 for a, b in zip(circle, want)), (circle, want)
words = [text.text for text in tree.iter(name + "text")]
listed = ["1: circle 37.88, depth 13.00, x 50.00, y 50.00", "2: circle 8.63, through, x 150.00, y 50.00"]
assert [line for line in words if ": " in line] == listed, words
print(f"the picture has the panel's depths at {looked} places, and the drawing its bores")
