"""A mesh of any number of triangles."""
from array import array

from ._arrays import owned, shaped
from ._library import HIT, MAX_COUNT
from .answers import Drills, MeshHit, Refused
from .cabinet import Cabinet
from .mesh import Mesh, drill_rows, kept
from .stl import read_stl

OUT_OF_BOUNDS = 5


class LargeMesh:
    """A mesh of any number of triangles: one Mesh, or, if that would be too large, a cabinet of them, halved along the longest
    side until each piece is small enough. Triangles are counted from 0, in the order in which they were given. Threads may share
    it.

    Raises Refused with 5 (no triangle, an index past the vertices, or a triangle whose box is not finite) or 6."""

    def __init__(self, vertices, triangles, most=MAX_COUNT):
        """Builds pieces of at most `most` triangles and as many vertices: at least 1 and 3, at most 65,536."""
        self._vertices, self._triangles = owned(vertices, "d", 3, "vertices"), owned(triangles, "I", 3, "triangles")
        if not self._triangles or max(self._triangles) >= len(self._vertices) // 3:
            raise Refused(OUT_OF_BOUNDS)
        self._most = min(max(most, 1), MAX_COUNT)
        self._pieces = list(self._split(list(range(len(self._triangles) // 3))))
        self._cabinet = Cabinet()
        for mesh, _ in self._pieces:
            self._cabinet.add(mesh, (0, 0, 0))

    @classmethod
    def from_stl(cls, path):
        """The mesh of an STL file, binary or ASCII; equal vertices are merged. Raises StlError if the file is wrong."""
        return cls(*read_stl(path, most=None))

    def _split(self, numbers):
        """The triangles of these numbers, in ascending order, as one piece, or in halves: each piece as a Mesh and its numbers."""
        if len(numbers) <= self._most:
            vertices, triangles = self._part_of(numbers)
            if len(vertices) <= 3 * max(self._most, 3):
                yield Mesh(vertices, triangles), numbers
                return
        for half in self._halves(numbers):
            yield from self._split(half)

    def _part_of(self, numbers):
        """The vertices and triangles of some of the triangles; the vertices are in the order of their first use."""
        places, vertices, triangles = {}, array("d"), array("I")
        for number in numbers:
            for index in self._triangles[3 * number : 3 * number + 3]:
                if index not in places:
                    places[index] = len(places)
                    vertices.extend(self._vertices[3 * index : 3 * index + 3])
                triangles.append(places[index])
        return vertices, triangles

    def _halves(self, numbers):
        """Splits two or more triangles into halves, along the longest side of the box of their centres. Each half is in ascending
        order, so that of equally near triangles of a piece the first is returned."""
        def middle(number, axis):
            return sum(self._vertices[3 * index + axis] for index in self._triangles[3 * number : 3 * number + 3])

        middles = [{number: middle(number, axis) for number in numbers} for axis in range(3)]
        longest = max(middles, key=lambda along: max(along.values()) - min(along.values()))
        ordered = sorted(numbers, key=longest.get)
        half = len(ordered) // 2
        return sorted(ordered[:half]), sorted(ordered[half:])

    def cast(self, ray):
        """The nearest MeshHit by the exact cast (Mesh.cast_exact), or None: this miss is certain. Of equally near triangles, also
        of different pieces, it is the one with the lowest number. Raises Refused with 1 or 12."""
        hits = []
        for mesh, numbers in self._pieces:
            hit = mesh.cast_exact(ray)
            if hit is not None:
                hits.append(hit._replace(triangle=numbers[hit.triangle]))
        return min(hits, key=lambda hit: (hit.distance, hit.triangle), default=None)

    def drill(self, ray, radius):
        """Whether a drill of a radius about a ray's segment touches the mesh (Mesh.drill): None if it is clear, or the lowest number
        of a triangle that is touched, of all pieces. Raises Refused with 1 or 12."""
        found = [(numbers, mesh.drill(ray, radius)) for mesh, numbers in self._pieces]
        return min((numbers[index] for numbers, index in found if index is not None), default=None)

    def drill_many(self, origins, directions, max_distance, radius, near_distance=0.0, refused="raise"):
        """The `drill` of many, as Drills, in the way of Mesh.drill_many."""
        rows = drill_rows(origins, directions, max_distance, near_distance, radius)
        pieces = [
            (mesh.drill_many(origins, directions, max_distance, radius, near_distance, "keep"), numbers)
            for mesh, numbers in self._pieces
        ]
        answers, triangles = array("I"), array("I")
        for drill in range(len(rows) // 9):
            found = [numbers[each.triangles[drill]] for each, numbers in pieces if each.answers[drill] == HIT]
            # a refusal of one piece goes before all else: its number is below the codes, and a hit's is below a miss's
            answers.append(min(each.answers[drill] for each, _ in pieces))
            triangles.append(min(found) if answers[drill] == HIT else Drills.NO_TRIANGLE)
        return kept(refused, Drills(answers, triangles, rows))

    def cast_exact_all(self, ray):
        """Every triangle that a ray meets, by the exact cast (Mesh.cast_exact_all), as a list of MeshHit: each once, in order of
        depth, then of number. The list is empty exactly if `cast` is None. Raises Refused with 1 or 12."""
        hits = [
            hit._replace(triangle=numbers[hit.triangle]) for mesh, numbers in self._pieces for hit in mesh.cast_exact_all(ray)
        ]
        return sorted(hits, key=lambda hit: (hit.distance, hit.triangle))

    def cast_rounded(self, ray):
        """The nearest MeshHit by the rounded cast (Mesh.cast), or None. Of equally near triangles of different pieces it is the
        one of the first piece. Raises Refused with 1, 6 or 7."""
        hit = self._cabinet.cast(ray).hit
        if hit is None:
            return None
        return MeshHit(hit.distance, hit.normal, self._pieces[hit.part][1][hit.triangle])

    @property
    def pieces(self):
        """The number of meshes that it consists of."""
        return len(self._pieces)

    @property
    def vertices(self):
        """A read-only view, of three numbers a vertex."""
        return shaped(self._vertices, 3)

    @property
    def triangles(self):
        """A read-only view, of three vertex indices a triangle."""
        return shaped(self._triangles, 3)
