#!/usr/bin/env python3
"""Writes examples/panel.stl, an ASCII STL file: a panel of 200 x 100 x 18 mm with two bores.

  examples/panel_stl.py > examples/panel.stl

The left half, x 0 to 100, has a blind bore like a hinge's cup, 35 mm across and 13 mm deep, about (50, 50); the right
half a bore 8 mm across, right through, about (150, 50). A bore is an octagon, its width taken across the flats.
The faces of a half are joined to eight points around it, its corners and the middles of its sides.

The facets, counted from 0; a ring is two facets a side of the octagon, a fan one, a wall two:
  left half    0 to 15 top (ring)    16 to 23 bottom (fan)    24 to 39 bore's wall   40 to 47 its floor (fan)
               48 to 59 outer walls, from (100, 100) by (0, 100) and (0, 0) to (100, 0)
  right half   60 to 75 top (ring)   76 to 91 bottom (ring)   92 to 107 bore's wall
               108 to 119 outer walls, from (100, 0) by (200, 0) and (200, 100) to (100, 100)
"""
import math

DEPTH = 100.0
THICK = 18.0


def around(left, right):
    """Eight points around a half, from the middle of its right side on, to the left."""
    middle = (left + right) / 2
    return [(right, DEPTH / 2), (right, DEPTH), (middle, DEPTH), (left, DEPTH),
            (left, DEPTH / 2), (left, 0.0), (middle, 0.0), (right, 0.0)]


def octagon(x, y, far, near):
    """The corners of an octagon about a point, from just above the x axis on, to the left."""
    steps = [(far, near), (near, far), (-near, far), (-far, near),
             (-far, -near), (-near, -far), (near, -far), (far, -near)]
    return [(x + dx, y + dy) for dx, dy in steps]


def at(point, z):
    return (*point, z)


def sides(loop):
    return list(zip(loop, loop[1:] + loop[:1]))


def ring(outer, inner, z):
    """Between two loops, seen from above."""
    for (p, q), (r, s) in zip(sides(outer), sides(inner)):
        yield at(p, z), at(q, z), at(r, z)
        yield at(r, z), at(q, z), at(s, z)


def fan(loop, centre, z):
    """Within a loop, seen from above."""
    for p, q in sides(loop):
        yield at(centre, z), at(p, z), at(q, z)


def wall(edges, low, high):
    """Below edges, seen from their right."""
    for p, q in edges:
        yield at(p, low), at(q, low), at(q, high)
        yield at(p, low), at(q, high), at(p, high)


def turned(facets):
    """Seen from the other side."""
    for a, b, c in facets:
        yield b, a, c


def panel():
    left, cup, centre = around(0.0, 100.0), octagon(50.0, 50.0, 17.5, 7.25), (50.0, 50.0)
    yield from ring(left, cup, THICK)
    yield from turned(fan(left, centre, 0.0))
    yield from turned(wall(sides(cup), THICK - 13.0, THICK))
    yield from fan(cup, centre, THICK - 13.0)
    yield from wall(sides(left)[1:7], 0.0, THICK)
    right, bore = around(100.0, 200.0), octagon(150.0, 50.0, 4.0, 1.625)
    yield from ring(right, bore, THICK)
    yield from turned(ring(right, bore, 0.0))
    yield from turned(wall(sides(bore), 0.0, THICK))
    yield from wall(sides(right)[5:] + sides(right)[:3], 0.0, THICK)


def normal(a, b, c):
    u, v = [q - p for p, q in zip(a, b)], [q - p for p, q in zip(a, c)]
    cross = [u[1] * v[2] - u[2] * v[1], u[2] * v[0] - u[0] * v[2], u[0] * v[1] - u[1] * v[0]]
    length = math.sqrt(sum(part * part for part in cross))
    return [part / length + 0.0 for part in cross]


def words(numbers):
    return " ".join(f"{number:g}" for number in numbers)


print("solid panel")
for facet in panel():
    print("facet normal", words(normal(*facet)))
    print(" outer loop")
    for corner in facet:
        print("  vertex", words(corner))
    print(" endloop")
    print("endfacet")
print("endsolid panel")
