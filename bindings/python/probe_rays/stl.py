"""The mesh of an STL file, binary or ASCII."""
import math
import struct
from array import array

from ._library import MAX_COUNT
from .answers import NotAdmitted


class StlError(NotAdmitted):
    """A file that is not an STL file, or one whose mesh is outside the limits."""


def read_stl(path, most=MAX_COUNT):
    """Vertices and triangles, as two arrays, for Mesh or PlainMesh. Equal vertices are merged, -0 and 0 too, but never merely
    near ones, so no point moves. The triangles are in the file's order. A file of more than `most` triangles or vertices raises
    StlError; with None any number is read, for LargeMesh."""
    with open(path, "rb") as file:
        data = file.read()
    try:
        return _merged(_facets(data), most)
    except StlError as why:
        raise StlError(f"{path}: {why}") from None


# no binary file has more facets; letters of text read as larger counts
_MOST_FACETS = 100_000_000


def _facets(data):
    """Nine numbers a facet. A binary file may begin with 'solid', so the length decides: 84 bytes and 50 a facet. No byte of
    a text is 0. A UTF-8 byte order mark before the text is ignored."""
    count = struct.unpack_from("<I", data, 80)[0] if len(data) >= 84 else None
    if count is not None and len(data) == 84 + 50 * count:
        return _binary(data)
    text = data.removeprefix(b"\xef\xbb\xbf")
    is_solid = text.lstrip()[:5].lower() == b"solid"
    if is_solid and 0 not in text:
        return _ascii(text.decode("utf-8", "replace"))
    raise StlError(_fault(len(data), count, is_solid))


def _fault(length, count, is_solid):
    """Why bytes are not an STL file."""
    if count is None and is_solid:
        return f"cut short: a binary file has 84 bytes before its facets, and this file has {length}"
    if count is None:
        return f"not an STL file: {length} bytes that do not begin with 'solid'"
    wanted = f"a binary file of {count} facets has {84 + 50 * count} bytes, not {length}"
    if count <= _MOST_FACETS and length < 84 + 50 * count:
        return f"cut short: {wanted}"
    if is_solid:
        return f"not an STL file: it begins with 'solid' but is not text, and {wanted}"
    return f"not an STL file: it does not begin with 'solid', and {wanted}"


def _finite(corners, place):
    if not all(map(math.isfinite, corners)):
        raise StlError(f"{place}: a coordinate is not finite")
    return corners


def _binary(data):
    # 12 bytes of a normal, 36 of the corners, two unused
    facets = struct.iter_unpack("<12x9f2x", data[84:])
    return [_finite(corners, f"facet {index}") for index, corners in enumerate(facets)]


def _vertex(words, place):
    try:
        x, y, z = map(float, words)
    except ValueError:
        raise StlError(f"{place}: 'vertex' takes three numbers") from None
    return x, y, z


def _ascii(text):
    """The facets of an ASCII file, which may hold several solids. Their names, and the facets' normals, are ignored."""
    facets, corners, is_open = [], [], False
    for number, line in enumerate(text.splitlines(), 1):
        place = f"line {number}"
        first, *rest = line.split() or [""]
        word = first.lower()
        if word in ("solid", "endsolid"):
            is_open = word == "solid"
        elif word == "facet":
            corners = []
        elif word == "vertex":
            corners.extend(_vertex(rest, place))
        elif word == "endfacet":
            if len(corners) != 9:
                raise StlError(f"{place}: a facet of {len(corners) // 3} vertices")
            facets.append(_finite(tuple(corners), place))
        elif word not in ("", "outer", "endloop"):
            raise StlError(f'{place}: "{word[:20]}" is not a word of an STL file')
    if is_open:
        raise StlError("cut short: the last solid has no 'endsolid'")
    return facets


def _merged(facets, most):
    if not facets:
        raise StlError("no triangles")
    places, vertices, triangles = {}, array("d"), array("I")
    for facet in facets:
        for at in (0, 3, 6):
            corner = facet[at : at + 3]
            index = places.setdefault(corner, len(places))
            if 3 * index == len(vertices):
                vertices.extend(corner)
            triangles.append(index)
    for count, what in ((len(facets), "triangles"), (len(places), "different vertices")):
        if most is not None and count > most:
            raise StlError(f"{count} {what}: at most {most} are allowed")
    return vertices, triangles
