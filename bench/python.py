#!/usr/bin/env python3
"""How long a ray takes from Python: one call a ray, and many rays in one call, at a panel of some 16,000 triangles.

  PYTHONPATH=PREFIX/lib/python bench/python.py     PREFIX as tools/install made it; least of five runs, in microseconds a ray

The rays are short probes straight down from a grid over the panel. Answers are compared before anything is timed.
"""
import time
from array import array

from probe_rays import Mesh, Ray

SIDE, RAYS, RUNS = 90, 20000, 5
DOWN = (0.0, 0.0, -1.0)


def panel():
    """A sheet of SIDE by SIDE squares of 1 mm, in two triangles each, wavy by some tenths of a millimetre."""
    wide = SIDE + 1
    vertices = [(x, y, 0.1 * ((3 * x + 5 * y) % 7)) for y in range(wide) for x in range(wide)]
    triangles = []
    for y in range(SIDE):
        for x in range(SIDE):
            a = x + wide * y
            triangles += [(a, a + 1, a + wide + 1), (a, a + wide + 1, a + wide)]
    return Mesh(vertices, triangles)


def origins():
    """Over the panel, off the grid's lines, and one in eight beside it."""
    places = array("d")
    for n in range(RAYS):
        x, y = (n * 37 % 997) / 997 * SIDE, (n * 61 % 991) / 991 * SIDE
        places.extend((x + (SIDE if n % 8 == 5 else 0) + 0.01, y + 0.02, 3.0))
    return places


def least(work):
    """The least time of a run, in microseconds a ray."""
    times = []
    for _ in range(RUNS):
        start = time.process_time()
        work()
        times.append(time.process_time() - start)
    return 1e6 * min(times) / RAYS


def main():
    mesh, starts = panel(), origins()
    rays = [Ray(tuple(starts[3 * n : 3 * n + 3]), DOWN, 5.0) for n in range(RAYS)]
    kinds = [("cast", mesh.cast, mesh.cast_many), ("cast_exact", mesh.cast_exact, getattr(mesh, "cast_exact_many", None))]
    for name, one, many in kinds:
        each = [one(ray) for ray in rays]
        print(f"{name}, a call a ray: {least(lambda: [one(ray) for ray in rays]):.2f} µs")
        if many is not None:
            assert list(many(starts, DOWN, 5.0)) == each
            assert 0 < each.count(None) < RAYS // 4
            print(f"{many.__name__}, one call: {least(lambda: many(starts, DOWN, 5.0)):.2f} µs")


if __name__ == "__main__":
    main()
