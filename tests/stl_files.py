#!/usr/bin/env python3
"""Writes STL files for tests/bindings.sh into a folder.

  stl_files.py FOLDER

Each same-NAME.stl holds the panel of examples/panel.stl. Each wrong-NAME.stl is a file that the STL example does not
take, and wrong-NAME.says what it says of it.
"""
import pathlib
import struct
import sys

folder = pathlib.Path(sys.argv[1])
text = (pathlib.Path(__file__).parent.parent / "examples/panel.stl").read_text()


def binary(facets):
    """The bytes of a binary file; a facet is nine numbers."""
    body = b"".join(struct.pack("<12fH", 0, 0, 0, *facet, 0) for facet in facets)
    return b"solid but binary".ljust(80) + struct.pack("<I", len(body) // 50) + body


def wrong(name, content, says):
    file = folder / f"wrong-{name}.stl"
    file.write_bytes(content)
    (folder / f"wrong-{name}.says").write_text(f"stl: {file}: {says}\n")


def strip(count):
    """Facets along x, two vertices each and one more."""
    return [(i, 0, 0, i + 1, 1, 0, i, 1, 0) for i in range(count)]


numbers = [float(word) for line in text.splitlines() if "vertex" in line for word in line.split()[1:]]
panel = [numbers[at : at + 9] for at in range(0, len(numbers), 9)]

# a binary file whose header begins with 'solid'; a mark of UTF-8; capitals, line ends of two bytes and a zero with a sign; two solids
(folder / "same-binary.stl").write_bytes(binary(panel))
(folder / "same-mark.stl").write_bytes(b"\xef\xbb\xbf" + text.encode())
capitals = text.upper().replace("\n", "\r\n").replace("VERTEX 0 ", "VERTEX -0 ", 1)
(folder / "same-capitals.stl").write_bytes(capitals.encode())
middle = text.index("facet normal", len(text) // 2)
two = text[:middle] + "endsolid panel\nsolid vertex 1 2 facet\n" + text[middle:]
(folder / "same-two-solids.stl").write_text(two)

wrong("empty", b"", "not an STL file: 0 bytes that do not begin with 'solid'")
wrong("short", binary(panel)[16:84], "not an STL file: 68 bytes that do not begin with 'solid'")
wrong(
    "cut-binary",
    b"panel".ljust(80) + binary(panel)[80:-1],
    "cut short: a binary file of 120 facets has 6084 bytes, not 6083",
)
wrong("cut-solid-binary", binary(panel)[:-50], "cut short: a binary file of 120 facets has 6084 bytes, not 6034")
wrong("cut-header", binary(panel)[:82], "cut short: a binary file has 84 bytes before its facets, and this file has 82")
wrong(
    "long-binary",
    b"panel".ljust(80) + binary(panel)[80:] + b"more",
    "not an STL file: it does not begin with 'solid', and a binary file of 120 facets has 6084 bytes, not 6088",
)
wrong(
    "long-solid-binary",
    binary(panel) + b"more",
    "not an STL file: it begins with 'solid' but is not text, and a binary file of 120 facets has 6084 bytes, not 6088",
)
wrong(
    "text",
    b"a text of no kind, ".ljust(200, b"-"),
    "not an STL file: it does not begin with 'solid', and a binary file of 757935405 facets has 37896770334 bytes, not 200",
)
wrong("cut-ascii", text[: text.index("endsolid")].encode(), "cut short: the last solid has no 'endsolid'")
wrong("no-facet", b"solid nothing\nendsolid nothing\n", "no triangles")
wrong("two-vertices", text.replace("  vertex 100 50 18\n", "", 1).encode(), "line 7: a facet of 2 vertices")
first = "vertex 100 50 18"
wrong("no-number", text.replace(first, "vertex 100 5O 18", 1).encode(), "line 4: 'vertex' takes three numbers")
wrong("not-finite", text.replace(first, "vertex 100 inf 18", 1).encode(), "line 8: a coordinate is not finite")
wrong("not-finite-binary", binary([(0, 0, 0, 1, 0, 0, 0, float("nan"), 0)]), "facet 0: a coordinate is not finite")
inner = text.replace(" outer loop", " inner loop", 1)
wrong("another-word", inner.encode(), 'line 3: "inner" is not a word of an STL file')
wrong("triangles", binary(strip(1) * 65537), "65537 triangles: at most 65536 are allowed")
wrong("vertices", binary(strip(32768)), "65537 different vertices: at most 65536 are allowed")
