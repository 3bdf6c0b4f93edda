"""Meshes, with a tree and without."""
import ctypes
import struct
from array import array
from typing import NamedTuple

from ._arrays import lent, owned, read_only, shaped, whole, zeros
from ._library import DONE, MAX_COUNT, NO, YES, library, untyped
from .answers import Drills, MeshHit, Refused, Results, TreeDoesNotFit, refusal_of, settled
from .stl import read_stl


class Tree(NamedTuple):
    """A tree, from whatever builder. The table in probe_rays.h gives the lengths and contents of its buffers."""

    nodes: int
    node_boxes: object
    triangle_boxes: object
    node_words: object
    order: object


def _tree_owned(tree):
    return Tree(
        whole(tree.nodes, 64, "nodes"),
        owned(tree.node_boxes, "d", 6, "node boxes"),
        owned(tree.triangle_boxes, "d", 6, "triangle boxes"),
        owned(tree.node_words, "I", 3, "node words"),
        owned(tree.order, "I", 1, "order"),
    )


def _with_room(n):
    """The buffers of a tree of n triangles, all zeros. The library refuses too many anyway, so none are made then."""
    n = n if n <= MAX_COUNT else 0
    return Tree(0, zeros("d", 12 * n), zeros("d", 6 * n), zeros("I", 6 * n), zeros("I", n))


def _areas(tree):
    return (*lent(tree.node_boxes), *lent(tree.triangle_boxes), *lent(tree.node_words), *lent(tree.order))


def _vertices(values):
    return owned(values, "d", 3, "vertices")


def _triangles(values):
    return owned(values, "I", 3, "triangles")


def _passes(vertices, triangles, tree):
    n = len(triangles) // 3
    marks = zeros("I", 3 * n if n <= MAX_COUNT else 0)
    answer = library.probe_tree_check(*lent(vertices), *lent(triangles), tree.nodes, *_areas(tree), *lent(marks))
    if answer not in (YES, NO):
        raise Refused(answer)
    return answer == YES


def tree_check(vertices, triangles, tree):
    """Whether a tree, from whatever builder, fits a mesh. Raises Refused with 2 or 3."""
    return _passes(_vertices(vertices), _triangles(triangles), _tree_owned(tree))


class _Place:
    """Where a cast writes its hit."""

    def __init__(self):
        self.hit, self.index = zeros("d", 4), zeros("I", 1)
        self.lent = (*lent(self.hit), *lent(self.index))

    def met(self):
        x, y, z, distance = self.hit
        return MeshHit(distance, (x, y, z), self.index[0])


_cast_one, _cast_one_exact = untyped("probe_ray_mesh_many"), untyped("probe_ray_mesh_exact_many")
_put = struct.Struct("8d").pack_into


class _Work:
    """The work buffers of one cast at a time at one mesh; their contents before a call do not matter. With them the arguments of
    a call of one ray at the mesh's own vertices, made once: ctypes takes most of a cast's time to convert arguments."""

    def __init__(self, mesh):
        nodes = mesh._tree.nodes
        self.list, self.stack = zeros("I", len(mesh._triangles) // 3), zeros("I", nodes + 1)
        self.walk = lent(self.stack)
        self.lent = (*lent(self.list), *self.walk)
        self.ray, self.code, self.place = zeros("d", 8), zeros("I", 1), _Place()
        board = (*lent(self.ray), *mesh._mesh, *lent(mesh._vertices), ctypes.c_size_t(nodes), *_areas(mesh._tree))
        self.rounded = (*board, *self.lent, *lent(self.code), *self.place.lent)
        self.exact = (*board, *self.walk, *lent(self.code), *self.place.lent)


def _rays(origins, directions, max_distance, near_distance):
    """Eight numbers a ray, one ray after the other. Each of the arrays has one entry for each ray, or one for all."""
    return _rows("rays", (
        (origins, 3, "origins"), (directions, 3, "directions"), (max_distance, 1, "maxima"), (near_distance, 1, "near distances")
    ))


def drill_rows(origins, directions, max_distance, near_distance, radius):
    """Nine numbers a drill, in the same way."""
    return _rows("drills", (
        (origins, 3, "origins"), (directions, 3, "directions"), (max_distance, 1, "maxima"), (near_distance, 1, "near distances"),
        (radius, 1, "radii"),
    ))


def _rows(name, fields):
    """The numbers of rays or drills, one after the other, from the values of each field, the field's width and its name."""
    columns = []
    for values, width, what in fields:
        column = owned(values if hasattr(values, "__iter__") else [values], "d", width, what)
        if len(column) % width:
            raise ValueError(f"{what}: {len(column)} numbers, which is no multiple of {width}")
        columns.append((column, width, len(column) // width, what))
    counts = [many for _, _, many, _ in columns]
    count, whole_row = max(counts) if all(counts) else 0, sum(width for _, width, _, _ in columns)
    rows, place = zeros("d", whole_row * count), 0
    for column, width, many, what in columns:
        if many not in (1, count):
            raise ValueError(f"{count} {name}, but {many} {what}: give one for each of the {name}, or one for all")
        for part in range(width if count else 0):
            # one number for each row, or the same for all; a slice of an array is copied without a loop in Python
            rows[place + part :: whole_row] = column[part::width] * (count if many == 1 else 1)
        place += width
    return rows


def touched(answer, numbers, index):
    """The index of a drill's answer, or None where it is clear; raises Refused."""
    return settled(answer, numbers, lambda: index[0])


def kept(refused, results):
    """The results of many rays or drills; raises the first refusal unless refusals are kept."""
    if refused not in ("raise", "keep"):
        raise ValueError("refused: 'raise' or 'keep'")
    if refused == "raise" and results.refused:
        results[results.refused[0]]  # raises
    return results


class PlainMesh:
    """A mesh without a tree, for parts of few triangles: nothing is built, and a cast visits every triangle. It is proved to
    return what Mesh.cast returns, refusals included."""

    def __init__(self, vertices, triangles):
        self._vertices, self._triangles = _vertices(vertices), _triangles(triangles)
        self._fixed = (*lent(self._vertices), *lent(self._triangles))

    def cast(self, ray):
        """The nearest MeshHit, or None; of equally near ones, the one with the lowest index. Raises Refused with 1, 2, 5, 6 or 7."""
        place, numbers = _Place(), ray.numbers()
        answer = library.probe_ray_mesh_plain(*numbers, *self._fixed, *place.lent)
        return settled(answer, numbers, place.met)

    def cast_exact(self, ray):
        """The exact cast: the first MeshHit, decided in integers, or None. A miss is certain. A ray along an edge or through a corner
        is a hit, and triangles coplanar with the ray count.

        Corners, ray, near and the maximum are read on a grid first (2^-15 mm, and 2^-30 for the direction): the C header
        probe_rays.h says how, at probe_ray_mesh_exact_plain, and what a miss and a hit then are.

        Raises Refused with 12 if the origin or a corner of a triangle of the mesh is not a number from -8,192 to 8,192, or near or
        the maximum is above 32,768; with 1, 2 or 5 as `cast` does."""
        place, numbers = _Place(), ray.numbers()
        answer = library.probe_ray_mesh_exact_plain(*numbers, *self._fixed, *place.lent)
        return settled(answer, numbers, place.met)

    def drill(self, ray, radius):
        """Whether a drill of a radius about a ray's segment touches the mesh: None if it is clear, or the lowest index of a
        triangle, with area or without, that has a point in it. Both are certain.

        The drill is the closed, flat-ended cylinder of the points whose foot on the axis is from near to the maximum, and whose
        distance to the axis is at most the radius. It is decided in integers, on the grid of `cast_exact`, with the radius rounded
        up to the next multiple of 2^-15 mm. What it says of the part as drawn, with no float rounded, stands in the C header ('The
        drill').

        Raises Refused with 1 (also if the radius is NaN, infinite or below 0), with 12 as `cast_exact` does, and if the radius is
        above 128; with 2 or 5 as `cast` does."""
        index, numbers = zeros("I", 1), (*ray.numbers(), radius)
        return touched(library.probe_drill_plain(*numbers, *self._fixed, *lent(index)), numbers, index)

    def build(self):
        """The same mesh with a tree."""
        return Mesh(self._vertices, self._triangles)


class Mesh:
    """A mesh and a tree that fits it: built here, or somebody else's that passed the check. So a cast at the mesh's own
    vertices misses no triangle whose box touches the box of the ray's segment. Neither can be changed; threads may share it.

    Raises Refused with 2 (more than 65,536 vertices or triangles), 5 (no triangle, an index past the vertices, or a triangle
    whose box is not finite) or 6."""

    def __init__(self, vertices, triangles):
        vertices, triangles = _vertices(vertices), _triangles(triangles)
        tree = _with_room(len(triangles) // 3)
        work, nodes = zeros("I", len(tree.order)), zeros("Q", 1)
        answer = library.probe_build(*lent(vertices), *lent(triangles), *_areas(tree), *lent(work), *lent(nodes))
        if answer != DONE:
            raise Refused(answer)
        self._set(vertices, triangles, tree._replace(nodes=nodes[0]))

    def _set(self, vertices, triangles, tree):
        self._vertices, self._triangles, self._tree = vertices, triangles, tree
        self._mesh = (*lent(vertices), *lent(triangles))
        self._areas = (tree.nodes, *_areas(tree))
        self._has_numbers = library.probe_mesh_has_numbers(*self._mesh) == YES
        self._free = []  # the work buffers that no cast uses now

    @classmethod
    def _of(cls, vertices, triangles, tree):
        mesh = cls.__new__(cls)
        mesh._set(vertices, triangles, tree)
        return mesh

    @classmethod
    def from_stl(cls, path):
        """The mesh of an STL file, binary or ASCII; equal vertices are merged. Raises StlError if the file is wrong."""
        return cls(*read_stl(path))

    @classmethod
    def with_tree(cls, vertices, triangles, tree):
        """Takes a tree that somebody else built, if it passes the check. With a tree that does not, a cast could miss a surface.
        Raises TreeDoesNotFit, or Refused with 2 or 3."""
        vertices, triangles, tree = _vertices(vertices), _triangles(triangles), _tree_owned(tree)
        if not _passes(vertices, triangles, tree):
            raise TreeDoesNotFit()
        return cls._of(vertices, triangles, tree)

    def glue(self, other):
        """Merges both into one mesh: the other's vertices and triangles follow this one's. `cast` at it returns the nearer of the
        hits of `cast` at the two, this mesh's if they are equally near; if one refuses, this mesh's refusal, else the other's.
        Raises Refused with 2 if both together have more than 65,536 vertices or triangles."""
        count, n = len(self._vertices) + len(other._vertices), len(self._triangles) + len(other._triangles)
        if count > 3 * MAX_COUNT or n > 3 * MAX_COUNT:
            count = n = 0  # the call refuses whatever the buffers are
        vertices, triangles, tree = zeros("d", count), zeros("I", n), _with_room(n // 3)
        marks, nodes = zeros("I", n), zeros("Q", 1)
        answer = library.probe_merge(
            *self._mesh, *self._areas, *other._mesh, *other._areas,
            *lent(vertices), *lent(triangles), *_areas(tree), *lent(marks), *lent(nodes),
        )
        if answer != DONE:
            raise Refused(answer)
        return self._of(vertices, triangles, tree._replace(nodes=nodes[0]))

    def _work(self):
        """Work buffers of a cast's own, for any number of threads: put back into `_free` after the cast."""
        try:
            return self._free.pop()
        except IndexError:
            return _Work(self)

    def _cast_at(self, call, ray, pose, work, buffers):
        """A cast at other vertices."""
        pose, numbers = owned(pose, "d", 3, "pose"), ray.numbers()
        answer = call(*numbers, *self._mesh, *lent(pose), *self._areas, *buffers, *work.place.lent)
        return settled(answer, numbers, work.place.met)

    def cast(self, ray, pose=None):
        """The nearest MeshHit, or None; of equally near ones, the one with the lowest index. Raises Refused with 1, 6 or 7.

        With a pose it casts at those vertices. They must be as many as the mesh's; otherwise it raises Refused with 4 or 2. The
        tree's boxes stay those of the mesh's own vertices: only triangles whose box there touches the box of the ray's segment are
        tested."""
        work = self._work()
        try:
            if pose is not None:
                return self._cast_at(library.probe_ray_mesh_near, ray, pose, work, work.lent)
            numbers = ray.numbers()
            _put(work.ray, 0, *numbers)
            _cast_one(*work.rounded)
            return settled(work.code[0], numbers, work.place.met)
        finally:
            self._free.append(work)

    def cast_exact(self, ray, pose=None):
        """The exact cast. It returns what PlainMesh.cast_exact returns, through the tree: the two are proved to agree for a mesh
        without a NaN. The constructor looks for a NaN, and a mesh that has one is cast at without its tree. With a pose it casts
        at those vertices, as `cast` does; a miss is not certain there.

        >>> from probe_rays import Mesh, Ray
        >>> part = Mesh([(0, 0, 0), (31, 0, 0), (0, 31, 0), (31, 31, 0)], [(0, 1, 2), (3, 2, 1)])
        >>> part.cast_exact(Ray((1, 30, 1), (0, 0, -1), 2)).distance
        1.0

        Raises Refused with 1, or with 12 if the origin or a corner of a triangle of the mesh is not a number from -8,192 to 8,192,
        or near or the maximum is above 32,768."""
        work = self._work()
        try:
            if pose is not None:
                return self._cast_at(library.probe_ray_mesh_exact, ray, pose, work, work.walk)
            numbers = ray.numbers()
            if not self._has_numbers:
                answer = library.probe_ray_mesh_exact_plain(*numbers, *self._mesh, *work.place.lent)
                return settled(answer, numbers, work.place.met)
            _put(work.ray, 0, *numbers)
            _cast_one_exact(*work.exact)
            return settled(work.code[0], numbers, work.place.met)
        finally:
            self._free.append(work)

    def cast_many(self, origins, directions, max_distance, near_distance=0.0, refused="raise"):
        """The `cast` of many rays, as Casts, by one call of the library. Give one origin, direction, maximum and near distance for
        each ray, or one for all.

        A ray that is refused raises Refused with its index; with refused="keep" it is kept among the results.

        >>> from probe_rays import Mesh
        >>> part = Mesh([(0, 0, 0), (4, 0, 0), (0, 4, 0)], [(0, 1, 2)])
        >>> casts = part.cast_many([(1, 1, 5), (3, 3, 5)], (0, 0, -1), 10)
        >>> casts.distances.tolist(), casts[1]
        ([5.0, inf], None)
        """
        rays = _rays(origins, directions, max_distance, near_distance)
        return self._cast_each(rays, refused, library.probe_ray_mesh_many, lambda work: work.lent)

    def cast_exact_many(self, origins, directions, max_distance, near_distance=0.0, refused="raise"):
        """The `cast_exact` of many rays by one call of the library, in the same way."""
        call = library.probe_ray_mesh_exact_many if self._has_numbers else None
        rays = _rays(origins, directions, max_distance, near_distance)
        return self._cast_each(rays, refused, call, lambda work: work.walk)

    def _cast_each(self, rays, refused, call, buffers):
        """The results of rays of eight numbers each, by one call; without a tree if there is no call."""
        results = Results(len(rays) // 8)
        if call is None:
            self._cast_without_tree(rays, results)
        else:
            work = self._work()
            answer = call(*lent(rays), *self._mesh, *lent(self._vertices), *self._areas, *buffers(work), *results.lent)
            self._free.append(work)
            if answer != DONE:
                raise Refused(answer)
        return kept(refused, results.casts(rays))

    def _cast_without_tree(self, rays, results):
        """The exact cast of each ray, for a mesh with a NaN."""
        place = _Place()
        for ray in range(len(rays) // 8):
            answer = library.probe_ray_mesh_exact_plain(*rays[8 * ray : 8 * ray + 8], *self._mesh, *place.lent)
            results.put(ray, answer, place.hit, place.index[0])

    def drill(self, ray, radius):
        """Whether a drill of a radius about a ray's segment touches the mesh: None if it is clear, or the lowest index of a
        triangle that is touched. It returns what PlainMesh.drill returns, through the tree: the two are proved to agree for a mesh
        without a NaN. A mesh that has one is asked without its tree.

        >>> from probe_rays import Mesh, Ray
        >>> square = Mesh([(0, 0, 0), (4, 0, 0), (4, 4, 0), (0, 4, 0)], [(0, 1, 2), (0, 2, 3)])
        >>> beside = Ray((7, -4, 1), (0, 0, -1), 2)  # 3 and 4 off the corner
        >>> square.drill(beside, 4.999) is None, square.drill(beside, 5)
        (True, 0)

        Raises Refused with 1 (also if the radius is NaN, infinite or below 0), or with 12 as `cast_exact` does, and if the radius
        is above 128."""
        index, numbers = zeros("I", 1), (*ray.numbers(), radius)
        if not self._has_numbers:
            return touched(library.probe_drill_plain(*numbers, *self._mesh, *lent(index)), numbers, index)
        work = self._work()
        answer = library.probe_drill(*numbers, *self._mesh, *self._areas, *work.lent, *lent(index))
        self._free.append(work)
        return touched(answer, numbers, index)

    def drill_many(self, origins, directions, max_distance, radius, near_distance=0.0, refused="raise"):
        """The `drill` of many, as Drills, by one call of the library. Give one origin, direction, maximum, radius and near distance
        for each drill, or one for all.

        A drill that is refused raises Refused with its index; with refused="keep" it is kept among the results.

        >>> from probe_rays import Mesh
        >>> square = Mesh([(0, 0, 0), (4, 0, 0), (4, 4, 0), (0, 4, 0)], [(0, 1, 2), (0, 2, 3)])
        >>> drills = square.drill_many([(7, -4, 1), (1, 3, 1)], (0, 0, -1), 2, [4.999, 0.5])
        >>> list(drills), drills.triangles[1]
        ([None, 1], 1)
        """
        rows = drill_rows(origins, directions, max_distance, near_distance, radius)
        codes = zeros("I", len(rows) // 9)
        indices = array("I", [Drills.NO_TRIANGLE]) * len(codes)
        if self._has_numbers:
            work = self._work()
            answer = library.probe_drill_many(
                *lent(rows), *self._mesh, *self._areas, *work.lent, *lent(codes), *lent(indices)
            )
            self._free.append(work)
            if answer != DONE:
                raise Refused(answer)
        else:
            self._drill_without_tree(rows, codes, indices)
        return kept(refused, Drills(codes, indices, rows))

    def _drill_without_tree(self, rows, codes, indices):
        """The answer of each drill, for a mesh with a NaN."""
        for drill in range(len(codes)):
            index = indices[drill : drill + 1]
            codes[drill] = library.probe_drill_plain(*rows[9 * drill : 9 * drill + 9], *self._mesh, *lent(index))
            indices[drill] = index[0]

    def cast_all(self, ray, pose=None):
        """Every triangle that a ray hits by the rounded cast, of those whose box touches the box of the ray's segment: each once,
        in order of depth, as a list of MeshHit. The hit of `cast` is the first. Raises Refused with 1, 6 or 7.

        With a pose it casts at those vertices, as `cast` does: only triangles whose box at the mesh's own vertices touches are
        tested."""
        return self._list(library.probe_ray_mesh_all, ray.numbers(), pose)

    def cast_exact_all(self, ray, pose=None):
        """Every triangle that the exact cast meets, as a list of MeshHit: each triangle in which the ray's segment has a point, edges
        and corners included, as `cast_exact` says, once, with its normal and the float nearest to its own least depth. They are in
        order of depth; of equally near ones the lower index is first. The hit of `cast_exact` is the first of them, and the list is
        empty exactly if `cast_exact` is a miss. A point on a shared edge lies in both triangles, so both are listed.

        >>> from probe_rays import Mesh, Ray
        >>> part = Mesh([(0, 0, 0), (31, 0, 0), (0, 31, 0), (31, 31, 0)], [(0, 1, 2), (3, 2, 1)])
        >>> down = Ray((1, 30, 1), (0, 0, -1), 2)
        >>> [(hit.distance, hit.triangle) for hit in part.cast_exact_all(down)]
        [(1.0, 0), (1.0, 1)]
        >>> part.cast_all(down)
        []

        With a pose it casts at those vertices, as `cast` does: each hit is a true one there, but the list need not be complete.
        Raises Refused as `cast_exact` does."""
        return self._list_exact(ray.numbers(), pose)

    def cast_exact_all_many(self, origins, directions, max_distance, near_distance=0.0):
        """The `cast_exact_all` of many rays, as a list of lists. Give one origin, direction, maximum and near distance for each ray,
        or one for all. The first ray that is refused raises Refused."""
        rays = _rays(origins, directions, max_distance, near_distance)
        return [self._list_exact(rays[place : place + 8], None) for place in range(0, len(rays), 8)]

    def _list_exact(self, numbers, pose):
        if pose is None and not self._has_numbers:
            # the exact cast refuses a mesh that has a NaN at a corner
            raise refusal_of(library.probe_ray_mesh_exact_plain(*numbers, *self._mesh, *_Place().lent), numbers)
        return self._list(library.probe_ray_mesh_exact_all, numbers, pose)

    def _list(self, call, numbers_of_ray, pose):
        """The hits that a call of the library lists."""
        pose = self._vertices if pose is None else owned(pose, "d", 3, "pose")
        n = len(self._triangles) // 3
        indices, numbers, found = zeros("I", n), zeros("d", 4 * n), zeros("Q", 1)
        work = self._work()
        answer = call(
            *numbers_of_ray, *self._mesh, *lent(pose), *self._areas, *work.lent,
            *lent(indices), *lent(numbers), *lent(found),
        )
        self._free.append(work)
        if answer != DONE:
            raise refusal_of(answer, numbers_of_ray)
        places = (numbers[4 * k : 4 * k + 4] for k in range(found[0]))
        return [MeshHit(place[0], tuple(place[1:]), index) for place, index in zip(places, indices)]

    def query(self, minimum, maximum):
        """The triangles whose boxes touch a box, as a list of indices in ascending order. Raises Refused with 1."""
        n = len(self._triangles) // 3
        work, found = self._work(), zeros("Q", 1)
        answer = library.probe_query(*minimum, *maximum, n, *self._areas, *work.lent, *lent(found))
        listed = work.list[: found[0]].tolist()
        self._free.append(work)
        if answer != DONE:
            raise Refused(answer)
        return listed

    @property
    def vertices(self):
        """A read-only view, of three numbers a vertex."""
        return shaped(self._vertices, 3)

    @property
    def triangles(self):
        """A read-only view, of three vertex indices a triangle."""
        return shaped(self._triangles, 3)

    @property
    def tree(self):
        """The tree, in read-only views."""
        return Tree(self._tree.nodes, *(read_only(area) for area in self._tree[1:]))
