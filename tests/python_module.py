#!/usr/bin/env python3
"""The Python module against document 01's marked answers, document 02's requests, the panel of examples/, whose answers were
found by hand, and a computation in exact fractions. tests/python.sh calls it with a folder for files; its last line says how
many tests passed.

Directions are (0,0,-1) unless given, and T is the triangle (0,0,0), (1,0,0), (0,1,0). K14 and K15 are of functions that the
library does not offer."""
import ctypes
import math
import pathlib
import random
import struct
import subprocess
import sys
import unittest
from array import array
from concurrent.futures import ThreadPoolExecutor
from fractions import Fraction

import probe_rays
from probe_rays import (
    Cabinet, HeightField, HeightRanges, LargeMesh, LevelSet, Mesh, PlainMesh, Ray, Refused, ray_plane, ray_triangle
)

HERE = pathlib.Path(__file__).resolve().parent
EXAMPLES = HERE.parent / "examples"
WORK = pathlib.Path(sys.argv.pop(1))

DOWN = (0, 0, -1)
UP = (0.0, 0.0, 1.0)
T = [(0, 0, 0), (1, 0, 0), (0, 1, 0)]
SQUARE = [(0, 0, 0), (4, 0, 0), (4, 4, 0), (0, 4, 0)], [(0, 1, 2), (0, 2, 3)]


def down(x, y, z, most, near=0.0):
    return Ray((x, y, z), DOWN, most, near)


def layers(count):
    """T, as often as asked for."""
    return Mesh(T, [(0, 1, 2)] * count)


def box(a, b):
    """A box from one corner to another: vertices and triangles, two a side."""
    corners = [[b[axis] if k >> axis & 1 else a[axis] for axis in range(3)] for k in range(8)]
    sides = [(0, 2, 3, 1), (4, 5, 7, 6), (0, 1, 5, 4), (2, 6, 7, 3), (0, 4, 6, 2), (1, 3, 7, 5)]
    return corners, [three for p, q, r, s in sides for three in ((p, q, r), (p, r, s))]


class Case(unittest.TestCase):
    def refuses(self, number, call):
        with self.assertRaises(Refused) as caught:
            call()
        self.assertEqual(caught.exception.number, number)
        return caught.exception

    def hits(self, hit, distance):
        self.assertEqual((hit.distance, hit.normal), (distance, UP))


class Marked(Case):
    """Document 01's K1 to K13, with K7 and K8 as document 02 changes them."""

    def test_k1_to_k3_plane(self):
        self.hits(ray_plane(down(0, 0, 2, 2), UP, 0), 2)
        self.assertIsNone(ray_plane(down(0, 0, 2, 1), UP, 0))
        self.assertIsNone(ray_plane(Ray((0, 0, 2), (1, 0, 0), 2), UP, 0))

    def test_k4_to_k6_triangle(self):
        self.hits(ray_triangle(down(0.25, 0.25, 1, 1), *T), 1)
        self.hits(ray_triangle(down(0.5, 0.5, 1, 1), *T), 1)
        self.assertIsNone(ray_triangle(down(0.75, 0.5, 1, 1), *T))

    def test_k7_and_k8_large_triangles(self):
        self.hits(ray_triangle(down(2.5e159, 0.25, 1, 10), (0, 0, 0), (1e160, 0, 0), (0, 1, 0)), 1)
        self.refuses(6, lambda: ray_triangle(down(5e159, 5e159, 1, 10), (0, 0, 0), (1e160, 1e160, 0), (0, 1e-7, 0)))

    def test_k9_to_k11_mesh(self):
        hit = layers(2).cast(down(0.25, 0.25, 1, 1))
        self.hits(hit, 1)
        self.assertEqual(hit.triangle, 0)
        self.refuses(5, lambda: layers(0))
        self.assertEqual((layers(4).tree.nodes, layers(5).tree.nodes), (1, 3))

    def test_k12_heights_and_k13_distances(self):
        self.hits(HeightField([[0, 0], [0, 0]], 2, 2, (1, 1)).cast(down(0.75, 0.25, 1, 2)), 1)
        grid = LevelSet([0.0] * 8, (2, 2, 2), (0, 0, 0), (1, 1, 1))
        self.refuses(8, lambda: grid.cast(down(0.5, 0.5, 2, 5)))

    def test_printed_result(self):
        self.hits(ray_plane(down(0, 0, 2, 5), UP, 0), 2)
        self.refuses(1, lambda: ray_plane(Ray((0, 0, 2), (0, 0, -2), 5), UP, 0))


class Refusals(Case):
    def test_numbers(self):
        mesh, ray = layers(1), down(0.25, 0.25, 1, 10)
        self.refuses(1, lambda: mesh.cast(down(math.inf, 0, 0, 1)))
        self.refuses(1, lambda: mesh.cast_all(down(0, 0, 0, -1)))
        self.refuses(1, lambda: mesh.cast_exact_all(down(0, 0, 0, -1)))
        self.refuses(12, lambda: mesh.cast_exact_all(down(8193, 0, 0, 1)))
        self.refuses(4, lambda: mesh.cast_exact_all(ray, pose=T[:2]))
        self.refuses(1, lambda: mesh.cast(down(0, 0, 0, 1, near=2)))
        self.refuses(1, lambda: mesh.query((1, 0, 0), (0, 1, 1)))
        self.refuses(2, lambda: layers(65537))
        self.refuses(2, lambda: PlainMesh(T, [(0, 1, 2)] * 65537).cast(ray))
        self.refuses(2, lambda: Mesh([0, 0, 0, 1], [0, 0, 0]))
        self.refuses(2, lambda: HeightField([0.0] * 5, 2, 2, (1, 1)).cast(ray))
        self.refuses(3, lambda: probe_rays.tree_check(T, [(0, 1, 2)], mesh.tree._replace(order=[])))
        self.refuses(4, lambda: mesh.cast(ray, pose=T[:2]))
        self.refuses(5, lambda: Mesh(T, [(0, 1, 3)]))
        self.refuses(5, lambda: PlainMesh(T, [(0, 1, 3)]).cast(ray))
        self.refuses(5, lambda: Mesh([(0, 0, 0), (math.inf, 0, 0), (0, 1, 0)], [(0, 1, 2)]))
        most = sys.float_info.max
        self.refuses(6, lambda: mesh.cast(Ray((0, 0, most), (0, 0, 1), most)))
        # the cross of the edges is infinite, and the determinant is not
        x, y, p = 2.0**610, 2.0**210, 2.0**-10
        self.refuses(7, lambda: ray_triangle(Ray((x / 4, y, p / 4), (1, 0, 0), 1), (0, 0, 0), (x, 0, p), (0, x, 0)))

    def test_words(self):
        self.assertEqual(str(Refused(7)), "refused 7, no normal: the surface that is hit has no unit normal")
        self.assertEqual(str(Refused(200)), "refused 200, a refusal that this module does not know")
        self.assertEqual(str(Refused(1, ray=4))[-8:], " (ray 4)")

    def test_every_refusal_of_the_header_has_words(self):
        for number in probe_rays._library.REFUSALS:
            self.assertNotIn("does not know", str(Refused(number)))


class Near(Case):
    """Document 02's M-106: a surface at just the near distance is hit, a nearer one is passed over."""

    def test_all_shapes(self):
        plain, mesh = PlainMesh(T, [(0, 1, 2)]), layers(1)
        field = HeightField([0.0] * 4, 2, 2, (1, 1))
        casts = [
            lambda ray: ray_plane(ray, UP, 0), lambda ray: ray_triangle(ray, *T), plain.cast, mesh.cast, field.cast,
            lambda ray: (mesh.cast_all(ray) or [None])[0],
        ]
        for cast in casts:
            self.hits(cast(down(0.25, 0.25, 2, 5, near=2)), 2)
            self.assertIsNone(cast(down(0.25, 0.25, 2, 5, near=2.5)))
        # the surface z = 0.5: each value is the node's height less 0.5
        grid = LevelSet([-0.5] * 4 + [0.5] * 4, (2, 2, 2), (0, 0, 0), (1, 1, 1))
        self.assertAlmostEqual(grid.cast(down(0.5, 0.5, 2, 5, near=1.25)).distance, 1.5, places=12)
        self.assertIsNone(grid.cast(down(0.5, 0.5, 2, 5, near=1.75)))


class Trees(Case):
    def test_one_from_elsewhere(self):
        mesh = layers(5)
        self.assertTrue(probe_rays.tree_check(mesh.vertices, mesh.triangles, mesh.tree))
        again = Mesh.with_tree(mesh.vertices, mesh.triangles, mesh.tree)
        self.assertEqual(again.tree.nodes, 3)
        boxes = array("d", mesh.tree.node_boxes)
        boxes[3] = 0.5  # the root's maximum x
        wrong = mesh.tree._replace(node_boxes=boxes)
        self.assertFalse(probe_rays.tree_check(mesh.vertices, mesh.triangles, wrong))
        with self.assertRaises(probe_rays.TreeDoesNotFit):
            Mesh.with_tree(mesh.vertices, mesh.triangles, wrong)

    def test_a_mesh_cannot_be_changed(self):
        mesh = layers(1)
        for view in (mesh.vertices, mesh.triangles, *mesh.tree[1:]):
            self.assertTrue(view.readonly)
        given = array("d", [0, 0, 0, 1, 0, 0, 0, 1, 0])
        mesh = Mesh(given, [(0, 1, 2)])
        given[0] = 1e9
        self.assertEqual(mesh.vertices.tolist()[0], [0, 0, 0])

    def test_query(self):
        # a box about a board's bottom: the two triangles of each side but the top
        self.assertEqual(Mesh(*box((0, 0, 0), (60, 40, 18))).query((-1, -1, -1), (61, 41, 0.5)), [0, 1, 4, 5, 6, 7, 8, 9, 10, 11])


class Boards(Case):
    """A board 60 by 40 by 18, and one 22 thick on it: their measures tell what a ray straight down meets."""

    def test_glued(self):
        lower, upper = Mesh(*box((0, 0, 0), (60, 40, 18))), Mesh(*box((0, 0, 18), (60, 40, 40)))
        glued = lower.glue(upper)
        self.assertEqual((glued.vertices.shape, glued.triangles.shape), ((16, 3), (24, 3)))
        self.assertTrue(probe_rays.tree_check(glued.vertices, glued.triangles, glued.tree))
        for x in range(1, 60, 7):
            for y in range(2, 40, 5):
                ray = down(x + 0.25, y + 0.125, 100, 200)
                self.assertAlmostEqual(lower.cast(ray).distance, 82, places=9)
                self.assertAlmostEqual(glued.cast(ray).distance, 60, places=9)
                depths = [hit.distance for hit in glued.cast_all(ray)]
                for found, expected in zip(depths, (60, 82, 82, 100), strict=True):
                    self.assertAlmostEqual(found, expected, places=9)
                # both faces at 82 are of one depth; the lower index is first
                exact = [(hit.distance, hit.triangle < 12) for hit in glued.cast_exact_all(ray)]
                self.assertEqual(exact, [(60, False), (82, True), (82, False), (100, True)])
                moved = [(a, b, c + 5) for a, b, c in lower.vertices.tolist()]
                self.assertAlmostEqual(lower.cast(ray, pose=moved).distance, 77, places=9)
        self.assertIsNone(glued.cast(down(61, 20, 100, 200)))
        self.assertEqual(glued.cast_all(down(61, 20, 100, 200)), [])
        # in the box, through a corner of it, beside it
        lists = lower.cast_exact_all_many([(30.5, 10.25, 100), (60, 40, 100), (61, 20, 100)], (0, 0, -1), 200)
        self.assertEqual([hit.distance for hit in lists[0]], [82, 100])
        self.assertEqual({hit.distance for hit in lists[1]}, {82, 100})
        self.assertEqual(lists[2], [])
        many = layers(40000)
        self.refuses(2, lambda: many.glue(many))

    def test_plain_agrees(self):
        shape = box((0, 0, 0), (60, 40, 18))
        plain, mesh = PlainMesh(*shape), Mesh(*shape)
        for x in range(-3, 64):
            ray = Ray.toward((x + 0.3, 20.1, 30), (0.1, 0.2, -1), 100)
            self.assertEqual(plain.cast(ray), mesh.cast(ray))
        self.assertEqual(plain.build().cast(down(30, 10, 30, 100)), mesh.cast(down(30, 10, 30, 100)))
        self.assertIsNone(PlainMesh([], []).cast(down(0, 0, 1, 2)))

    def test_cabinet(self):
        # a square of two triangles, one leaf, placed twice, 10 apart
        square = Mesh([(0, 0, 0), (1, 0, 0), (1, 1, 0), (0, 1, 0)], [(0, 1, 2), (0, 2, 3)])
        cabinet = Cabinet()
        self.assertEqual(cabinet.cast(down(0.25, 0.5, 12, 20)), (None, 0))
        self.assertEqual((cabinet.add(square, (0, 0, 0)), cabinet.add(square, (0, 0, 10))), (0, 1))
        self.assertEqual((len(cabinet), cabinet.nodes), (2, 2))
        cast = cabinet.cast(down(0.25, 0.5, 12, 20))
        self.assertEqual((cast.hit.distance, cast.hit.part, cast.hit.triangle, cast.spent), (2, 1, 1, 2))
        passed = cabinet.cast(down(0.25, 0.5, 12, 20, near=3), limit=2)
        self.assertEqual((passed.hit.distance, passed.hit.part), (12, 0))
        self.assertEqual(self.refuses(10, lambda: cabinet.cast(down(0.25, 0.5, 12, 20), limit=1)).spent, 1)
        # the other mesh stands behind the first in the areas that they share
        cabinet.add(layers(3), (10, 0, 5))
        self.assertEqual(cabinet.cast(down(10.25, 0.25, 12, 20)).hit[::3], (7, 2))

    def test_cabinet_of_examples(self):
        # examples/cabinet.c, whose answers were found by hand: examples/cabinet.expected
        upright, flat = Mesh(*box((0, 0, 0), (18, 560, 720))), Mesh(*box((0, 0, 0), (564, 560, 18)))
        cabinet = Cabinet()
        for mesh, origin in ((upright, (0, 0, 0)), (upright, (582, 0, 0)), *((flat, (18, 0, z)) for z in (0, 350, 702))):
            cabinet.add(mesh, origin)
        names = ["left side", "right side", "bottom", "shelf", "top"]
        above, within, beside = (300, 280, 1000), (300, 280, 600), (700, 280, 600)
        left, right = (-1, 0, 0), (1, 0, 0)
        probes = [(above, DOWN, 0, None), (above, DOWN, 290, None), (within, DOWN, 0, None), (within, left, 0, None)]
        probes += [(within, right, 0, None), (beside, left, 0, None), (beside, right, 0, None), (above, DOWN, 0, 4)]
        lines = []
        for origin, direction, near, limit in probes:
            start = "from (%g, %g, %g) along (%g, %g, %g): " % (*origin, *direction)
            try:
                hit = cabinet.cast(Ray(origin, direction, 2000, near), limit).hit
            except Refused as why:
                lines.append(f"{start}refused {why.number} after {why.spent} nodes")
                continue
            normal = "(%g, %g, %g)" % tuple(part + 0.0 for part in hit.normal) if hit else ""
            lines.append(start + (f"{names[hit.part]} at {hit.distance:g}, normal {normal}" if hit else "none"))
        self.assertEqual(lines, (EXAMPLES / "cabinet.expected").read_text().splitlines())


class Ranges(Case):
    def test_veneer(self):
        # veneer of 18 to 19 mm: a probe that ends 18.5 over the ground may meet it, one that ends at 20 is clear
        veneer = HeightRanges([18.0] * 6, [19.0] * 6, 2, 3, (100, 100))
        self.assertEqual(veneer.cast(down(150, 50, 30, 11.5)), probe_rays.Possible(1))
        self.assertEqual(veneer.cast(down(50, 50, 30, 11.5)), probe_rays.Possible(0))
        self.assertTrue(veneer.cast(down(50, 50, 30, 11.5)), "cell 0 is no no")
        self.assertIsNone(veneer.cast(down(150, 50, 30, 10)))
        swapped = HeightRanges([19.0] * 6, [18.0] * 6, 2, 3, (100, 100))
        self.refuses(9, lambda: swapped.cast(down(150, 50, 30, 10)))


def exact(mesh, numbers):
    """The least depth at which a ray crosses a triangle, by exact fractions of the floats; None where there is none, and
    NotImplemented where a crossing lies so near a side or an end that rounding may decide."""
    vertices, triangles = mesh
    origin, direction, most = numbers[:3], numbers[3:6], Fraction(numbers[6])
    sub = lambda a, b: [Fraction(p) - Fraction(q) for p, q in zip(a, b)]
    cross = lambda a, b: [a[1] * b[2] - a[2] * b[1], a[2] * b[0] - a[0] * b[2], a[0] * b[1] - a[1] * b[0]]
    dot = lambda a, b: sum(p * q for p, q in zip(a, b))
    ray = [Fraction(part) for part in direction]
    least = None
    for one, two, three in triangles:
        edge, other, start = sub(vertices[two], vertices[one]), sub(vertices[three], vertices[one]), sub(origin, vertices[one])
        p = cross(ray, other)
        determinant = dot(edge, p)
        if abs(determinant) < Fraction(1, 10**6):
            if determinant:
                return NotImplemented
            continue
        q = cross(start, edge)
        u, v, t = dot(start, p) / determinant, dot(ray, q) / determinant, dot(other, q) / determinant
        inside = min(u, v, 1 - u - v, t, most - t)
        if abs(inside) < Fraction(1, 10**9):
            return NotImplemented
        if inside > 0:
            least = t if least is None else min(t, least)
    return least


def first_point(board, ray):
    """The least depth at which a ray is in a closed triangle that has area, on the grid of 2^-15 mm, as the float nearest to it in
    millimetres, and the first triangle that has this float; None where there is none. A triangle is what lies on both sides of
    its plane and within each side: each of these keeps the depths d where first + d * slope is not below 0."""
    vertices, triangles = board
    # round() of a fraction takes half to even
    read = lambda part, units: Fraction(round(Fraction(part) * units), units)
    grid = lambda point: [read(part, 1 << 15) for part in point]
    origin, direction = grid(ray.origin), [read(part, 1 << 30) for part in ray.direction]
    most, near = grid((ray.max_distance, ray.near_distance))
    sub = lambda a, b: [p - q for p, q in zip(a, b)]
    cross = lambda a, b: [a[1] * b[2] - a[2] * b[1], a[2] * b[0] - a[0] * b[2], a[0] * b[1] - a[1] * b[0]]
    dot = lambda a, b: sum(p * q for p, q in zip(a, b))
    least = None
    for index, corners in enumerate(triangles):
        a, b, c = (grid(vertices[corner]) for corner in corners)
        normal = cross(sub(b, a), sub(c, a))
        if not any(normal):
            continue
        above, rise = dot(normal, sub(origin, a)), dot(normal, direction)
        tests = [(above, rise), (-above, -rise)]
        for p, q in ((a, b), (b, c), (c, a)):
            side = sub(q, p)
            tests.append((dot(normal, cross(side, sub(origin, p))), dot(normal, cross(side, direction))))
        low = max([near] + [-first / slope for first, slope in tests if slope > 0])
        high = min([most] + [-first / slope for first, slope in tests if slope < 0])
        if low <= high and all(first >= 0 for first, slope in tests if slope == 0) and (least is None or float(low) < least[0]):
            least = float(low), index
    return least


class Batches(Case):
    def soup(self, seed, count):
        """Triangles anywhere in a cube of 20, and rays about it."""
        pick = random.Random(seed)
        coordinate = lambda: pick.uniform(-10, 10)
        vertices = [(coordinate(), coordinate(), coordinate()) for _ in range(3 * count)]
        return vertices, [(k, k + 1, k + 2) for k in range(0, 3 * count, 3)]

    def test_against_exact_fractions(self):
        pick = random.Random(7)
        shape = self.soup(3, 40)
        mesh = Mesh(*shape)
        origins = [tuple(pick.uniform(-15, 15) for _ in range(3)) for _ in range(400)]
        aims = [[pick.uniform(-10, 10) - part for part in origin] for origin in origins]
        rays = [Ray.toward(origin, aim, pick.uniform(5, 60)) for origin, aim in zip(origins, aims)]
        casts = mesh.cast_many(origins, [ray.direction for ray in rays], [ray.max_distance for ray in rays])
        self.assertEqual(len(casts), 400)
        told = {"hit": 0, "none": 0, "open": 0}
        for ray, hit, distance in zip(rays, casts, casts.distances):
            expected = exact(shape, ray.numbers())
            if expected is NotImplemented:
                told["open"] += 1
            elif expected is None:
                told["none"] += 1
                self.assertIsNone(hit)
                self.assertEqual(distance, math.inf)
            else:
                told["hit"] += 1
                self.assertAlmostEqual(hit.distance, float(expected), places=9)
                self.assertEqual(distance, hit.distance)
            self.assertEqual(mesh.cast(ray), hit)
        self.assertGreater(min(told["hit"], told["none"]), 100)
        self.assertLess(told["open"], 10)
        casts = mesh.cast_exact_many(origins, [ray.direction for ray in rays], [ray.max_distance for ray in rays])
        self.assertEqual(list(casts), [mesh.cast_exact(ray) for ray in rays])

    def test_arrays(self):
        mesh = Mesh(*SQUARE)
        casts = mesh.cast_many([(1, 3, 5), (9, 9, 5)], DOWN, 10)
        self.assertEqual((casts[0].triangle, casts[1], casts[-1]), (1, None, None))
        self.assertEqual((casts.distances.tolist(), casts.triangles.tolist()), ([5.0, math.inf], [1, 2**32 - 1]))
        self.assertEqual(casts.normals.tolist()[0], [0.0, 0.0, 1.0])
        self.assertTrue(all(map(math.isnan, casts.normals.tolist()[1])))
        self.assertEqual((casts.normals.shape, casts.answers.tolist(), casts.refused), ((2, 3), [256, 257], []))
        self.assertEqual(len(mesh.cast_many([], DOWN, 10)), 0)
        # one origin, and a direction, maximum and near distance for each ray: straight down, aslant (5 in x, past the side), up
        fan = mesh.cast_many((1, 3, 5), [DOWN, (math.sqrt(0.5), 0, -math.sqrt(0.5)), (0, 0, 1)], [5, 10, 10], [5, 0, 0])
        self.assertEqual(fan.distances.tolist(), [5.0, math.inf, math.inf])
        self.assertIsNone(mesh.cast_many((1, 3, 5), DOWN, 10, 5.5)[0])
        with self.assertRaises(IndexError):
            casts[2]
        for wrong in (
            ([(1, 3)], DOWN, 10), ([(1, 3, 5)] * 3, [DOWN] * 2, 10), ([(1, 3, 5)] * 3, DOWN, [1, 2]), ([], [DOWN] * 2, 10),
            ([1, 3, 5, 9], DOWN, 10), ((1, 3, 5), [DOWN] * 2, [1] * 3),
        ):
            for cast in (mesh.cast_many, mesh.cast_exact_many):
                with self.assertRaises(ValueError):
                    cast(*wrong)

    def test_one_for_all_or_one_for_each(self):
        # whatever is one for all rays, the answers are those of the single casts
        mesh, pick = Mesh(*self.soup(9, 60)), random.Random(19)
        each = {
            "origins": [tuple(pick.uniform(-12, 12) for _ in range(3)) for _ in range(40)],
            "directions": [Ray.toward((0, 0, 0), [pick.uniform(-1, 1) for _ in range(3)], 1).direction for _ in range(40)],
            "max_distance": [pick.uniform(10, 40) for _ in range(40)],
            "near_distance": [pick.uniform(0, 5) for _ in range(40)],
        }
        met = 0
        for chosen in range(16):
            values = {name: column if chosen >> k & 1 else column[0] for k, (name, column) in enumerate(each.items())}
            rays = [Ray(*(each[name][n if chosen >> k & 1 else 0] for k, name in enumerate(each))) for n in range(40 if chosen else 1)]
            for many, one in ((mesh.cast_many, mesh.cast), (mesh.cast_exact_many, mesh.cast_exact)):
                casts = many(**values)
                self.assertEqual(list(casts), [one(ray) for ray in rays])
                met += len(casts) - casts.answers.tolist().count(257)
        self.assertGreater(met, 100)

    def test_refusals_are_no_nones(self):
        mesh = Mesh(*SQUARE)
        origins = [(1, 3, 5), (math.nan, 3, 5), (9, 9, 5)]
        self.assertEqual(self.refuses(1, lambda: mesh.cast_many(origins, DOWN, 10)).ray, 1)
        kept = mesh.cast_many(origins, DOWN, 10, refused="keep")
        self.assertEqual((kept.answers.tolist(), kept.refused), ([256, 1, 257], [1]))
        self.assertTrue(math.isnan(kept.distances[1]))
        self.assertEqual(self.refuses(1, lambda: kept[1]).ray, 1)
        self.refuses(1, lambda: list(kept))
        for cast in (mesh.cast_many, mesh.cast_exact_many):
            with self.assertRaises(ValueError):
                cast(origins, DOWN, 10, refused="none")
        # the rays' own refusals stand among the answers: a NaN, an origin out of range, a maximum below 0
        exact = mesh.cast_exact_many([*origins, (1, 3, 9000), (3, 1, 5)], DOWN, [10, 10, 10, 9001, -1], refused="keep")
        self.assertEqual((exact.answers.tolist(), exact.refused), ([256, 1, 257, 12, 1], [1, 3, 4]))
        self.assertEqual([math.isnan(distance) for distance in exact.distances], [False, True, False, True, True])
        self.assertEqual(exact.triangles.tolist()[1:], [2**32 - 1] * 4)
        self.refuses(12, lambda: exact[3])

    def test_a_mesh_with_a_nan(self):
        vertices = [(0, 0, 0), (9, 0, 0), (0, 9, 0), (500, math.nan, 0), (509, 0, 0), (500, 9, 0)]
        mesh = Mesh(vertices, [(0, 1, 2), (3, 4, 5)])
        self.assertEqual(mesh.cast_exact_many([(1, 1, 1), (20, 1, 1)], DOWN, 2, refused="keep").answers.tolist(), [12, 12])
        self.assertEqual(self.refuses(12, lambda: mesh.cast_exact_many((1, 1, 1), DOWN, 2)).ray, 0)

    def test_threads_share_a_mesh(self):
        shape = self.soup(5, 200)
        mesh = Mesh(*shape)
        pick = random.Random(11)
        origins = [tuple(pick.uniform(-15, 15) for _ in range(3)) for _ in range(300)]
        once = mesh.cast_many(origins, DOWN, 30).distances.tolist()
        with ThreadPoolExecutor(4) as threads:
            for found in threads.map(lambda _: mesh.cast_many(origins, DOWN, 30).distances.tolist(), range(8)):
                self.assertEqual(found, once)


class Buffers(Case):
    """Any buffer, and rows of numbers, are the same mesh."""

    def test_kinds(self):
        vertices, triangles = SQUARE
        flat = [float(number) for row in vertices for number in row]
        indices = [index for row in triangles for index in row]
        kinds = [
            (vertices, triangles),
            (flat, indices),
            (array("d", flat), array("I", indices)),
            (array("f", flat), array("H", indices)),
            (memoryview(array("d", flat)).cast("B").cast("d", (4, 3)), memoryview(array("I", indices)).cast("B").cast("I", (2, 3))),
            (memoryview(array("d", flat)).toreadonly(), array("Q", indices)),
            ((ctypes.c_double * 12)(*flat), (ctypes.c_uint32 * 6)(*indices)),
            ((tuple(row) for row in vertices), iter(triangles)),
        ]
        for kind in kinds:
            mesh = Mesh(*kind)
            self.assertEqual(mesh.vertices.tolist(), [list(map(float, vertex)) for vertex in vertices])
            self.assertEqual(mesh.triangles.tolist(), [list(triangle) for triangle in triangles])
        for wrong in ([(0, 0), (1, 1)], memoryview(array("d", flat)).cast("B").cast("d", (6, 2))):
            with self.assertRaises(ValueError):
                Mesh(wrong, triangles)
        for wrong in ([(0, 1, -1)], [(0, 1, 2**32)]):
            with self.assertRaises(OverflowError):
                Mesh(vertices, wrong)

    def test_counts_are_not_cut(self):
        # ctypes would pass 2**32 + 2 as 2, and -1 as no limit
        cabinet, mesh = Cabinet(), layers(1)
        cabinet.add(mesh, (0, 0, 0))
        for wrong in (
            lambda: LevelSet([0.0] * 8, (2**32 + 2, 2, 2), (0, 0, 0), (1, 1, 1)),
            lambda: HeightField([0.0] * 4, 2**64 + 2, 2, (1, 1)),
            lambda: HeightField([0.0] * 4, 2, -1, (1, 1)),
            lambda: HeightRanges([0.0] * 4, [0.0] * 4, 2, 2**64 + 2, (1, 1)),
            lambda: cabinet.cast(down(0.25, 0.25, 1, 2), limit=-1),
            lambda: probe_rays.tree_check(T, [(0, 1, 2)], mesh.tree._replace(nodes=2**64 + 1)),
        ):
            with self.assertRaises(OverflowError):
                wrong()
        with self.assertRaises(TypeError):
            HeightField([0.0] * 4, 2.0, 2, (1, 1))
        for wrong in (lambda: HeightField([0.0] * 4, 2, 2, (1,)), lambda: LevelSet([0.0] * 8, (2, 2), (0, 0, 0), (1, 1, 1))):
            with self.assertRaises(ValueError):
                wrong()

    def test_numpy(self):
        try:
            import numpy
        except ImportError:
            self.skipTest("numpy is not there: pip install numpy, or apt-get install python3-numpy")
        mesh = Mesh(numpy.array(SQUARE[0], dtype=float), numpy.array(SQUARE[1], dtype=numpy.uint32))
        casts = mesh.cast_many(numpy.array([[1.0, 3.0, 5.0], [9.0, 9.0, 5.0]]), numpy.array([0.0, 0.0, -1.0]), 10.0)
        self.assertEqual(numpy.asarray(casts.normals).shape, (2, 3))
        self.assertEqual(numpy.asarray(casts.distances).tolist(), [5.0, math.inf])
        self.assertEqual(Mesh(numpy.asfortranarray(numpy.array(SQUARE[0], dtype=float)), SQUARE[1]).vertices.tolist()[1], [4, 0, 0])


class Stl(Case):
    """The panel of examples/, from all the files of tests/stl_files.py, and the files that are not right."""

    def fixed(self, number):
        text = f"{number:.3f}"
        return "0.000" if text == "-0.000" else text

    def vector(self, parts):
        return "(" + ", ".join(map(self.fixed, parts)) + ")"

    def place(self, ray, hit):
        at = self.vector(ray.at(hit.distance))
        return f"at {self.fixed(hit.distance)} mm, point {at}, normal {self.vector(hit.normal)}, triangle {hit.triangle}"

    def rays(self, file):
        words = [word for line in (EXAMPLES / file).read_text().splitlines() for word in line.split("#")[0].split()]
        numbers = list(map(float, words))
        return [Ray.toward(n[:3], n[3:6], n[6]) for n in (numbers[k : k + 7] for k in range(0, len(numbers), 7))]

    def expected(self, file):
        # the files have the words of every refusal 1; the module says which test the ray fails
        return (EXAMPLES / file).read_text().replace("the ray or the query box is not valid", "the maximum is below 0")

    def told(self, mesh, rays, cast):
        lines = [f"{len(mesh.triangles)} triangles, {len(mesh.vertices)} vertices, {mesh.tree.nodes} nodes"]
        for number, ray in enumerate(rays, 1):
            try:
                lines.append(f"ray {number}: {cast(ray)}")
            except Refused as why:
                lines.append(f"ray {number}: {why}")
        return "\n".join(lines) + "\n"

    def first(self, mesh):
        return self.told(mesh, self.rays("panel.rays"), lambda ray: self.one(ray, mesh.cast(ray)))

    def one(self, ray, hit):
        return "none" if hit is None else f"hit {self.place(ray, hit)}"

    def every(self, ray, hits):
        lines = "".join(f"\n  {self.place(ray, hit)}" for hit in hits)
        return f"{len(hits)} hit{'s' * (len(hits) != 1)}{lines}" if hits else "none"

    def test_panel(self):
        mesh = Mesh.from_stl(EXAMPLES / "panel.stl")
        self.assertEqual(self.first(mesh), self.expected("panel.hits"))
        depths = self.told(mesh, self.rays("panel.bores"), lambda ray: self.every(ray, mesh.cast_all(ray)))
        self.assertEqual(depths, self.expected("panel.depths"))

    def test_files(self):
        subprocess.run([HERE / "stl_files.py", WORK], check=True)
        same, wrong = sorted(WORK.glob("same-*.stl")), sorted(WORK.glob("wrong-*.stl"))
        self.assertGreaterEqual((len(same), len(wrong)), (3, 12))
        for file in same:
            self.assertEqual(self.first(Mesh.from_stl(file)), self.expected("panel.hits"))
        for file in wrong:
            with self.assertRaises(probe_rays.StlError) as caught:
                Mesh.from_stl(file)
            self.assertEqual(f"stl: {caught.exception}\n", file.with_suffix(".says").read_text())


class Faults(Case):
    """A ray that a cast refuses with 1 is told the test that it fails, and no other ray is."""

    CASES = [
        (Ray((math.nan, 0, 0), UP, 1), "the origin has a NaN"),
        (Ray((0, -math.inf, 0), UP, 1), "the origin is infinite"),
        (Ray((0, 0, 0), (0, math.nan, 1), 1), "the direction has a NaN"),
        (Ray((0, 0, 0), (math.inf, 0, 0), 1), "the direction is infinite"),
        (Ray((0, 0, 0), (0, -0.0, 0), 1), "the direction is zero"),
        (Ray((0, 0, 0), (0, 0, 2), 1), "the direction's length is not 1"),
        (Ray((0, 0, 0), (1e200, 0, 0), 1), "the direction's length is not 1"),
        (Ray((0, 0, 0), UP, math.nan), "the maximum is NaN"),
        (Ray((0, 0, 0), UP, math.inf), "the maximum is infinite"),
        (Ray((0, 0, 0), UP, -1), "the maximum is below 0"),
        (Ray((0, 0, 0), UP, -math.inf), "the maximum is below 0"),
        (Ray((0, 0, 0), UP, 1, math.nan), "the near distance is NaN"),
        (Ray((0, 0, 0), UP, 1, -0.5), "the near distance is below 0"),
        (Ray((0, 0, 0), UP, 1, 1.5), "the near distance is above the maximum"),
        (Ray((0, 0, 0), UP, 1, math.inf), "the near distance is above the maximum"),
    ]

    def test_words(self):
        mesh, cabinet = layers(1), Cabinet()
        cabinet.add(mesh, (0, 0, 0))
        for ray, words in self.CASES:
            self.assertEqual(ray.fault(), words)
            many = ([ray.origin], [ray.direction], [ray.max_distance], [ray.near_distance])
            for cast in (
                lambda: ray_plane(ray, UP, 0), lambda: ray_triangle(ray, *T), lambda: mesh.cast(ray), lambda: mesh.cast_exact(ray),
                lambda: mesh.cast_all(ray), lambda: PlainMesh(T, [(0, 1, 2)]).cast(ray), lambda: cabinet.cast(ray),
                lambda: PlainMesh(T, [(0, 1, 2)]).cast_exact(ray), lambda: HeightField([0.0] * 4, 2, 2, (1, 1)).cast(ray),
                lambda: HeightRanges([0.0] * 4, [1.0] * 4, 2, 2, (1, 1)).cast(ray),
            ):
                refused = self.refuses(1, cast)
                self.assertEqual((str(refused), refused.fault), (f"refused 1, invalid input: {words}", words))
            for cast in (mesh.cast_many, mesh.cast_exact_many):
                self.assertEqual(str(self.refuses(1, lambda: cast(*many))), f"refused 1, invalid input: {words} (ray 0)")

    def test_other_refusals_say_nothing_of_the_ray(self):
        self.assertIsNone(Ray((0, 0, 0), UP, 0, -0.0).fault())
        for refused in (
            self.refuses(12, lambda: layers(1).cast_exact(down(0, 0, 9000, 2))),
            self.refuses(1, lambda: layers(1).query((1, 0, 0), (0, 1, 1))),
        ):
            self.assertIsNone(refused.fault)

    def test_lengths_near_the_ends(self):
        refused = 0
        for end in (1 - 1e-12, 1 + 1e-12):
            for x, y in ((0, 0), (0.6, 0), (0.36, 0.48)):
                z = math.sqrt(1 - x * x - y * y)
                for step in range(-40, 41):
                    length = end + step * 2 * sys.float_info.epsilon
                    ray = Ray((0, 0, 0), (x * length, y * length, z * length), 1)
                    try:
                        ray_plane(ray, UP, 0)
                        self.assertIsNone(ray.fault())
                    except Refused:
                        self.assertEqual(ray.fault(), "the direction's length is not 1")
                        refused += 1
        self.assertTrue(100 <= refused < 386, refused)


class Facts(Case):
    """A tetrahedron has six edges, each of two triangles; without one triangle its three edges are open."""

    TETRAHEDRON = [(0, 2, 1), (0, 1, 3), (1, 2, 3), (2, 0, 3)]

    def moved(self, by):
        return [tuple(index + by for index in triangle) for triangle in self.TETRAHEDRON]

    def test_bounds(self):
        self.assertEqual(probe_rays.bounds([(1, -2, 5), (0.5, 7, 5)]), ((0.5, -2.0, 5.0), (1.0, 7.0, 5.0)))
        self.assertEqual(probe_rays.bounds([(math.nan, 0, 0), (3, 1, 2)]), ((3.0, 0.0, 0.0), (3.0, 1.0, 2.0)))
        self.assertIsNone(probe_rays.bounds([]))

    def test_open_edges(self):
        self.assertEqual(probe_rays.open_edges(self.TETRAHEDRON), 0)
        self.assertEqual(probe_rays.open_edges(self.TETRAHEDRON[1:]), 3)
        # a square of two triangles: its four sides, and the diagonal too where one of the two is the other way round
        self.assertEqual(probe_rays.open_edges([(0, 1, 2), (0, 2, 3)]), 4)
        self.assertEqual(probe_rays.open_edges([(0, 1, 2), (0, 3, 2)]), 5)
        self.assertEqual(probe_rays.open_edges([]), 0)

    def test_shells(self):
        self.assertEqual(probe_rays.shells(self.TETRAHEDRON), 1)
        self.assertEqual(probe_rays.shells(self.TETRAHEDRON + self.moved(4)), 2)
        # a vertex in common connects nothing
        self.assertEqual(probe_rays.shells(self.TETRAHEDRON + self.moved(3)), 2)
        self.assertEqual(probe_rays.shells([]), 0)

    def test_panel(self):
        vertices, triangles = probe_rays.read_stl(EXAMPLES / "panel.stl")
        self.assertEqual((probe_rays.open_edges(triangles), probe_rays.shells(triangles)), (0, 1))
        self.assertEqual(probe_rays.bounds(vertices)[0], (0.0, 0.0, 0.0))


class Large(Case):
    """A mesh in pieces against the whole one."""

    def test_pieces_answer_what_the_whole_mesh_does(self):
        # a floor of 36 squares, 4 wide, each at a height of its own and in two triangles
        vertices, triangles = [], []
        for n in range(36):
            x, y, z, first = n % 6 * 4, n // 6 * 4, n * 7 % 5, len(vertices)
            vertices += [(x, y, z), (x + 4, y, z), (x + 4, y + 4, z), (x, y + 4, z)]
            triangles += [(first, first + 1, first + 2), (first, first + 2, first + 3)]
        whole = Mesh(vertices, triangles)
        # at every millimetre, so also at sides and corners, and past the floor
        rays = [down(x, y, 9, 20) for x in range(-1, 26) for y in range(-1, 26)]
        for most in (1, 12, 72):
            large = LargeMesh(vertices, triangles, most)
            self.assertGreaterEqual(large.pieces, 72 // most)
            hits = [large.cast(ray) for ray in rays]
            self.assertEqual(hits, [whole.cast_exact(ray) for ray in rays])
            self.assertEqual(sum(hit is not None for hit in hits), 25 * 25)
            lists = [large.cast_exact_all(ray) for ray in rays]
            self.assertEqual(lists, [whole.cast_exact_all(ray) for ray in rays])
            self.assertEqual([(rows or [None])[0] for rows in lists], hits)
            for ray in rays:
                found, expected = large.cast_rounded(ray), whole.cast(ray)
                self.assertEqual(found and found.distance, expected and expected.distance)

    def test_of_equally_near_triangles_the_lowest_number_is_the_answer(self):
        # the first triangle stands at the larger x, so that the pieces have them in the other order
        large = LargeMesh([(0, 0, 0), (8, 0, 0), (8, 4, 0), (0, 4, 0)], [(0, 1, 2), (0, 2, 3)], 1)
        hit = large.cast(down(4, 2, 3, 5))
        self.assertEqual((large.pieces, hit.distance, hit.triangle), (2, 3.0, 0))
        self.assertEqual([hit.triangle for hit in large.cast_exact_all(down(4, 2, 3, 5))], [0, 1])

    def test_more_than_a_mesh_admits(self):
        # 250 by 264 triangles, 4 wide and 5 apart, the last one with its first corner at (1245, 1315)
        starts = [(5.0 * (n % 250), 5.0 * (n // 250)) for n in range(66_000)]
        vertices = array("d", (number for x, y in starts for number in (x, y, 0, x + 4, y, 0, x, y + 4, 0)))
        large = LargeMesh(vertices, array("I", range(3 * 66_000)))
        self.assertGreater(large.pieces, 1)
        for hit in (large.cast(down(1246, 1316, 6, 10)), large.cast_rounded(down(1246, 1316, 6, 10))):
            self.assertEqual((hit.distance, hit.triangle), (6.0, 65_999))
        self.refuses(2, lambda: Mesh(vertices, array("I", range(3 * 66_000))))

    def test_refusals(self):
        self.refuses(5, lambda: LargeMesh(T, []))
        self.refuses(5, lambda: LargeMesh(T, [(0, 1, 3)]))
        self.refuses(1, lambda: LargeMesh(T, [(0, 1, 2)]).cast(Ray((0, 0, 1), (0, 0, 0), 2)))


class Exact(Case):
    """The exact cast: where the rounded one passes, along outlines and faces, small boards of chance, and what is out of range."""

    def as_in_fractions(self, board, ray):
        """Compares an answer with that in fractions; whether it is a hit."""
        hit, expected = PlainMesh(*board).cast_exact(ray), first_point(board, ray)
        self.assertEqual(Mesh(*board).cast_exact(ray), hit)
        if expected is None:
            self.assertIsNone(hit)
            return False
        self.assertEqual((hit.distance, hit.triangle), expected)
        return True

    def test_where_the_rounded_cast_passes(self):
        # docs/DIFFERENCES.md, 'Found in the Rust', 2
        square = [(0, 0, 0), (31, 0, 0), (0, 31, 0), (31, 31, 0)], [(0, 1, 2), (3, 2, 1)]
        # document 02's M-112, its open side: the crossing lies on the side opposite the first corner, u = 6/91 and v = 85/91
        narrow = [(0, 0, 0), (1, 0, 0), (92, 91, 0)], [(0, 1, 2)]
        for board, ray, distance in ((square, down(1, 30, 1, 2), 1), (narrow, down(86, 85, 5, 10), 5)):
            self.assertIsNone(PlainMesh(*board).cast(ray))
            self.assertTrue(self.as_in_fractions(board, ray))
            self.hits(PlainMesh(*board).cast_exact(ray), distance)

    def test_outlines_and_ends(self):
        board = [(0, 0, 0), (4, 0, 0), (0, 4, 0)], [(0, 1, 2)]
        along = lambda y, z, most, near=0: self.as_in_fractions(board, Ray((-3, y, z), (1, 0, 0), most, near))
        self.assertEqual(PlainMesh(*board).cast_exact(Ray((-3, 0, 0), (1, 0, 0), 10)).distance, 3)
        # down a side, in the plane, to the one corner of it; and above the plane, beside it, and ending before it
        self.assertTrue(along(0, 0, 10) and along(1, 0, 10) and along(4, 0, 10) and along(0, 0, 3) and along(0, 0, 9, near=7))
        self.assertFalse(along(0, 1, 10) or along(5, 0, 10) or along(-1, 0, 10) or along(0, 0, 2) or along(0, 0, 9, near=8))

    def test_boards_of_chance(self):
        pick = random.Random(13)
        told = [0, 0]
        for number in range(1500):
            size, count = (4096, 5, 3)[number % 3], pick.randint(1, 4)
            point = lambda: tuple(pick.randint(-size, size) for _ in range(3))
            vertices = [point() for _ in range(3 * count)]
            axis, origin = pick.randrange(3), list(pick.choice(vertices) if pick.random() < 0.5 else point())
            origin[axis] = pick.randint(-size, size)
            direction = [0, 0, 0]
            direction[axis] = pick.choice((-1, 1))
            near = pick.randint(0, size)
            ray = Ray(tuple(origin), tuple(direction), near + pick.randint(0, 2 * size), near)
            told[self.as_in_fractions((vertices, [(k, k + 1, k + 2) for k in range(0, 3 * count, 3)]), ray)] += 1
        self.assertGreater(min(told), 200)

    def test_any_direction(self):
        pick = random.Random(17)
        told = [0, 0]
        for number in range(1500):
            # within half a millimetre, where the grid flattens some triangles, and within 8,192
            size, count = (2 ** -14, 0.5, 30, 8000)[number % 4], pick.randint(1, 4)
            whole = pick.random() < 0.3
            place = lambda: pick.randint(-4, 4) * size / 4 if whole else pick.uniform(-size, size)
            vertices = [(place(), place(), place()) for _ in range(3 * count)]
            p, q = pick.choice(vertices), pick.choice(vertices)
            aim = pick.choice((p, [(a + b) / 2 for a, b in zip(p, q)], (place(), place(), place())))
            way = pick.choice(((1, 1, 0), (1, 1, 1), (0, -1, 1), (place(), place(), place()), (0, 0, 1)))
            origin = [a - pick.choice((0, 0.5)) * b for a, b in zip(aim, Ray.toward(aim, way, 1).direction)]
            if any(abs(part) > 8192 for part in origin) or not any(way):
                continue
            near = pick.choice((0, 0, pick.uniform(0, size)))
            ray = Ray.toward(origin, way, near + pick.choice((0, pick.uniform(0, 2 * size), 4)), near)
            told[self.as_in_fractions((vertices, [(k, k + 1, k + 2) for k in range(0, 3 * count, 3)]), ray)] += 1
        self.assertGreater(min(told), 200)

    def test_every_ray_into_a_closed_board_hits(self):
        board = PlainMesh(*box((0, 0, 0), (6, 5, 4)))
        for x in range(7):
            for y in range(6):
                self.hits(board.cast_exact(down(x, y, 9, 20)), 5)
        self.assertIsNone(board.cast_exact(down(7, 5, 9, 20)))

    def test_through_a_tree(self):
        mesh = Mesh([(0, 0, 0), (31, 0, 0), (0, 31, 0), (31, 31, 0)], [(0, 1, 2), (3, 2, 1)])
        ray = down(1, 30, 1, 2)
        self.assertIsNone(mesh.cast(ray))
        self.hits(mesh.cast_exact(ray), 1)
        moved = lambda z: [(x, y, z) for x, y, _ in mesh.vertices.tolist()]
        self.hits(mesh.cast_exact(ray, pose=moved(-1)), 2)
        self.assertIsNone(mesh.cast_exact(ray, pose=moved(-2)))
        self.hits(mesh.cast_exact(ray, pose=moved(0.5)), 0.5)
        self.refuses(12, lambda: mesh.cast_exact(ray, pose=moved(8193)))
        # 1, 12 of the ray, then 4
        short = moved(0)[:3]
        self.refuses(1, lambda: mesh.cast_exact(down(8193, 30, 1, -1), pose=short))
        self.refuses(12, lambda: mesh.cast_exact(down(8193, 30, 1, 2), pose=short))
        self.refuses(4, lambda: mesh.cast_exact(ray, pose=short))

    def test_out_of_range(self):
        vertices, triangles = SQUARE
        square = PlainMesh(vertices, triangles)
        for ray in (down(1, 1, 8192.5, 9), down(1, 1, 1, 32768.5), down(1, 1, 1, 40000, near=33000), down(-8193, 1, 1, 2)):
            self.refuses(12, lambda: square.cast_exact(ray))
        for corner in ((4, 0, 8192.5), (-8193, 0, 0), (4, math.nan, 0)):
            moved = [vertices[0], corner, *vertices[2:]]
            self.refuses(12, lambda: PlainMesh(moved, triangles).cast_exact(down(1, 1, 1, 2)))
        self.hits(PlainMesh([vertices[0], (8192, 0, 0), *vertices[2:]], triangles).cast_exact(down(1, 1, 1, 2)), 1)
        # it comes after 1, and of the ray before 2 and 5
        self.refuses(1, lambda: square.cast_exact(down(9000, 1, 1, -1)))
        wrong = PlainMesh(vertices, [(0, 1, 4)])
        self.assertIn("out of range", str(self.refuses(12, lambda: wrong.cast_exact(down(9000, 1, 1, 2)))))
        self.refuses(5, lambda: wrong.cast_exact(down(1, 1, 1, 2)))

    def test_a_nan_is_found_without_the_tree(self):
        vertices = [(0, 0, 0), (9, 0, 0), (0, 9, 0), (500, math.nan, 0), (509, 0, 0), (500, 9, 0)]
        for mesh in (Mesh, PlainMesh):
            self.refuses(12, lambda: mesh(vertices, [(0, 1, 2), (3, 4, 5)]).cast_exact(down(1, 1, 1, 2)))
            self.hits(mesh(vertices, [(0, 1, 2)]).cast_exact(down(1, 1, 1, 2)), 1)

    def test_every_ray_out_of_a_closed_board_hits(self):
        board, pick = Mesh(*box((0, 0, 0), (6, 5, 4))), random.Random(5)
        for _ in range(2000):
            origin = [pick.uniform(0.001, size - 0.001) for size in (6, 5, 4)]
            # toward a place of the surface, corners, outlines and diagonals too
            toward = [pick.randint(0, size) for size in (6, 5, 4)]
            axis = pick.randrange(3)
            toward[axis] = pick.choice((0, (6, 5, 4)[axis]))
            ray = Ray.toward(origin, [a - b for a, b in zip(toward, origin)], 100)
            met = ray.at(board.cast_exact(ray).distance)
            self.assertLess(min(min(abs(part), abs(part - size)) for part, size in zip(met, (6, 5, 4))), 1e-4)


class Records(Case):
    def test_both_ways(self):
        # a plane's record: the length, the version, the kind, and twelve floats, which struct writes in both sizes
        numbers = (0, 0, 2, 0, 0, -1, 5, 0, 0, 0, 1, 0)
        two, three = struct.pack(">IBB12d", 98, 2, 1, *numbers), struct.pack(">IBB12f", 50, 3, 1, *numbers)
        self.assertEqual((probe_rays.record_to_short(two), probe_rays.record_to_long(three)), (three, two))
        self.refuses(2, lambda: probe_rays.record_to_short(three))
        self.refuses(2, lambda: probe_rays.record_to_long(b""))
        self.refuses(11, lambda: probe_rays.record_to_short(struct.pack(">IBB12d", 98, 2, 1, 0.1, *numbers[1:])))
        self.refuses(11, lambda: probe_rays.record_to_long(struct.pack(">IBB12f", 50, 3, 1, math.nan, *numbers[1:])))


class DrillTests(Case):
    """The drill, by the measures of small parts: rims and flat ends exactly touched, and what is refused."""

    UNIT = 1 / 32768
    CLEAR = None

    def answers(self, shape, ray, radius, expected):
        """Without a tree, through one, among many, and in pieces."""
        mesh, pieces, numbers = Mesh(*shape), LargeMesh(*shape, most=1), (ray.origin, ray.direction, ray.max_distance, radius)
        self.assertEqual(PlainMesh(*shape).drill(ray, radius), expected)
        self.assertEqual((mesh.drill(ray, radius), pieces.drill(ray, radius)), (expected, expected))
        for many in (mesh, pieces):
            drills = many.drill_many([ray.origin] * 2, *numbers[1:], ray.near_distance)
            self.assertEqual((list(drills), drills.refused), ([expected] * 2, []))
            code, index = (257, 2**32 - 1) if expected is None else (256, expected)
            self.assertEqual((drills.answers.tolist(), drills.triangles.tolist()), ([code] * 2, [index] * 2))

    def test_a_square(self):
        # beside the corner (4, 0, 0), 3 and 4 off it; the radius is read upward
        for radius, expected in ((5, 0), (5 - self.UNIT, self.CLEAR), (5 - self.UNIT * 0.75, 0), (4.9999, self.CLEAR)):
            self.answers(SQUARE, down(7, -4, 1, 2), radius, expected)
        # the flat end in the face, the near end in it, and a unit off
        for most, near, expected in (
            (5, 0, 1), (5 - self.UNIT, 0, self.CLEAR), (10, 5, 1), (10, 5 + self.UNIT, self.CLEAR), (10, 0, 1)
        ):
            self.answers(SQUARE, down(1, 3, 5, most, near), 0.25, expected)
        # the lowest of two, a line on an edge and beside it, and the wall along the face
        for ray, radius, expected in (
            (down(2, 2, 5, 10), 0.5, 0), (down(4, 2, 5, 10), 0, 0), (down(5, 2, 5, 10), -0.0, self.CLEAR),
            (Ray((-2, 2, 0.5), (1, 0, 0), 10), 0.5, 0), (Ray((-2, 2, 0.5), (1, 0, 0), 10), 0.499, self.CLEAR),
            (Ray((-2, 2, 0), (1, 0, 0), 2), 0.5, 1), (Ray((-2, 2, 0), (1, 0, 0), 1.5), 0.5, self.CLEAR),
        ):
            self.answers(SQUARE, ray, radius, expected)

    def test_where_the_exact_cast_is_a_miss(self):
        # three corners on a line, and a triangle inside the drill
        for corners in ([(0, 0, 0), (4, 0, 0), (2, 0, 0)], [(1, 0, 0), (2, 0, 0), (1, 1, 0)]):
            shape, ray = (corners, [(0, 1, 2)]), down(0, 0, 5, 10)
            self.assertIsNone(Mesh(*shape).cast_exact(ray))
            self.answers(shape, ray, 5, 0)
            self.answers(shape, ray, 1, 0)

    def test_a_bore_of_eight(self):
        corners = [(x, y, z) for z in (0, -12) for x, y in ((-4, -4), (4, -4), (4, 4), (-4, 4))]
        walls = [three for a, b in ((0, 1), (1, 2), (2, 3), (3, 0)) for three in ((a, b, b + 4), (a, b + 4, a + 4))]
        shape = corners, [*walls, (4, 5, 6), (4, 6, 7)]
        for most, diameter, expected in ((12, 7.9, self.CLEAR), (12, 8, 0), (12, 8.1, 0), (13, 7.9, 8), (12.9999, 7.9, self.CLEAR)):
            self.answers(shape, down(0, 0, 1, most), diameter / 2, expected)

    def test_refusals(self):
        meshes, ray = (PlainMesh(*SQUARE), Mesh(*SQUARE), LargeMesh(*SQUARE, most=1)), down(2, 2, 5, 10)
        faults = {math.nan: "the radius is NaN", -1: "the radius is below 0", math.inf: "the radius is infinite"}
        for mesh in meshes:
            for radius, words in faults.items():
                self.assertEqual(self.refuses(1, lambda: mesh.drill(ray, radius)).fault, words)
                self.refuses(1, lambda: mesh.drill(down(2, 2, 8193, 10), radius))
            self.refuses(12, lambda: mesh.drill(ray, 128.00000001))
            self.refuses(12, lambda: mesh.drill(down(2, 2, 8192.5, 10), 1))
            self.assertEqual(self.refuses(1, lambda: mesh.drill(down(2, 2, 5, -1), 129)).fault, "the maximum is below 0")
            self.assertEqual(mesh.drill(ray, 128), 0)
        self.refuses(5, lambda: PlainMesh(SQUARE[0], [(0, 1, 4)]).drill(ray, 1))
        far = [*SQUARE[0], (8192.5, 0, 0)], [*SQUARE[1], (1, 4, 2)]
        for mesh in (PlainMesh(*far), Mesh(*far), LargeMesh(*far, most=1)):
            self.refuses(12, lambda: mesh.drill(ray, 1))

    def test_many(self):
        for mesh in (Mesh(*SQUARE), LargeMesh(*SQUARE, most=1)):
            origins, radii = [(7, -4, 1), (7, -4, 1), (2, 2, 1), (2, 2, 1), (1, 3, 1)], [5, 4.9999, -1, 129, 0.25]
            kept = mesh.drill_many(origins, DOWN, 2, radii, refused="keep")
            self.assertEqual((kept.answers.tolist(), kept.refused, len(kept)), ([256, 257, 1, 12, 256], [2, 3], 5))
            self.assertEqual((kept[0], kept[1], kept[-1]), (0, None, 1))
            self.assertEqual(self.refuses(1, lambda: kept[2]).fault, "the radius is below 0")
            self.refuses(12, lambda: kept[3])
            self.assertEqual(self.refuses(1, lambda: mesh.drill_many(origins, DOWN, 2, radii)).ray, 2)
            self.assertEqual(len(mesh.drill_many([], DOWN, 2, 1)), 0)
            # a maximum and a near distance for each
            ends = mesh.drill_many((1, 3, 5), DOWN, [5, 4.9, 10, 10], 0.25, [0, 0, 5, 5.1])
            self.assertEqual(list(ends), [1, None, 1, None])
            for wrong in ((origins, DOWN, 2, [1, 2]), ([(1, 3)], DOWN, 2, 1)):
                with self.assertRaises(ValueError):
                    mesh.drill_many(*wrong)
            with self.assertRaises(ValueError):
                mesh.drill_many(origins, DOWN, 2, 1, refused="none")
        with_nan = Mesh([(0, 0, 0), (31, 0, 0), (0, 31, 0), (math.nan, 1, 1)], [(0, 1, 2), (0, 1, 3)])
        self.refuses(12, lambda: with_nan.drill(down(40, 1, 1, 2), 1))
        self.assertEqual(with_nan.drill_many([(40, 1, 1), (1, 1, 1)], DOWN, 2, 1, refused="keep").answers.tolist(), [12, 12])


class Library(Case):
    def test_rays(self):
        ray = Ray.toward((0, 0, 0), (0, 3, 4), 10)
        self.assertEqual((ray.direction, ray.at(5), ray.near_distance), ((0, 0.6, 0.8), (0, 3, 4), 0))
        self.assertEqual(Ray.toward((0, 0, 0), (0, 0, 0), 1).direction, (0, 0, 0))

    def test_the_part_is_the_header_s(self):
        part = probe_rays.cabinet.Part
        fields = [(name, getattr(part, name).offset) for name, _ in part._fields_]
        lines = [f'printf("%zu\\n", offsetof(probe_part, {name}));' for name, _ in fields] + ['printf("%zu\\n", sizeof(probe_part));']
        program = WORK / "part.c"
        program.write_text("#include <stdio.h>\n#include \"probe_rays.h\"\nint main(void) { " + " ".join(lines) + " return 0; }\n")
        include = pathlib.Path(probe_rays.__file__).resolve().parents[3] / "include"
        subprocess.run(["gcc", f"-I{include}", program, "-o", WORK / "part"], check=True)
        said = subprocess.run([WORK / "part"], check=True, capture_output=True, text=True).stdout.split()
        self.assertEqual(list(map(int, said)), [offset for _, offset in fields] + [ctypes.sizeof(part)])

    def test_calls(self):
        self.assertEqual(probe_rays.version(), probe_rays.VERSION)
        calls = probe_rays._library.declared(probe_rays._library._text)
        self.assertEqual(len(calls["probe_ray_plane_near"]), 14)
        self.assertEqual(calls["probe_ray_plane_near"].count(ctypes.c_double), 12)
        self.assertEqual(calls["probe_version"], [])
        self.assertGreaterEqual(len(calls), 19)


if __name__ == "__main__":
    import doctest

    program = unittest.main(exit=False, verbosity=0)
    docs = [doctest.testmod(module) for module in (probe_rays, probe_rays.facts)]
    skipped = program.result.skipped
    for _, why in skipped:
        print(f"SKIPPED: {why}", file=sys.stderr)
    if not program.result.wasSuccessful() or any(page.failed or not page.attempted for page in docs):
        sys.exit(1)
    print(f"{program.result.testsRun - len(skipped) + sum(page.attempted for page in docs)} tests")
