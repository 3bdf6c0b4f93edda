"""What the casts return."""
import math
from array import array
from typing import NamedTuple, Tuple

from ._arrays import lent, read_only, shaped, zeros
from ._library import HIT, NONE, REFUSALS
from .faults import fault_of

_WORDS = {
    "INVALID_INPUT": "invalid input: the ray or the query box is not valid",
    "BAD_SHAPE": "bad shape: a count, a length or a parameter is outside the limits, or a record is malformed",
    "NO_ROOM": "no room: a buffer is too short",
    "WRONG_POSE": "wrong pose: the pose does not have as many vertices as the mesh",
    "OUT_OF_BOUNDS": "out of bounds: an index, a box or a tree does not fit",
    "OVERFLOW": "overflow: a computed number is not finite",
    "NO_NORMAL": "no normal: the surface that is hit has no unit normal",
    "NOT_CONVERGENT": "not convergent: the traversal of the distance grid has no answer",
    "BAD_RANGE": "bad range: a range of heights is out of order or not finite",
    "LIMIT_REACHED": "limit reached: the cast would visit more nodes than the limit allows",
    "NOT_REPRESENTABLE": "not representable: a float of the record is NaN, or no f32 is exactly that number",
    "OUT_OF_RANGE": "out of range: the origin or a corner is not within 8,192, near or the maximum is above 32,768, or the radius is above 128",
}


class NotAdmitted(Exception):
    """The base class of all exceptions of this module."""


class Refused(NotAdmitted):
    """A call refused: nothing is known of the surface. `number` is the refusal's number in the header's table. `ray` is the
    ray's index in a batch, `spent` the number of nodes that a cabinet's cast has spent, and `fault` the test of refusal 1 that
    the ray fails; otherwise these are None."""

    def __init__(self, number, ray=None, spent=None, fault=None):
        name = REFUSALS.get(number)
        words = _WORDS.get(name) or (name.lower().replace("_", " ") if name else "a refusal that this module does not know")
        if fault is not None:
            words = f"invalid input: {fault}"
        super().__init__(f"refused {number}, {words}" + ("" if ray is None else f" (ray {ray})"))
        self.number, self.ray, self.spent, self.fault = number, ray, spent, fault


class TreeDoesNotFit(NotAdmitted):
    """The tree does not pass the check."""

    def __init__(self):
        super().__init__("the tree does not fit the mesh")


class Hit(NamedTuple):
    """A hit. A zero of the normal may be -0.0: a normal that is negated negates its zeros too."""

    distance: float
    normal: Tuple[float, float, float]


class MeshHit(NamedTuple):
    """A hit on a mesh, with the triangle's index, from 0."""

    distance: float
    normal: Tuple[float, float, float]
    triangle: int


class PartHit(NamedTuple):
    """A hit on a cabinet, with the part, from 0, and the triangle's index in its mesh."""

    distance: float
    normal: Tuple[float, float, float]
    triangle: int
    part: int


class Possible(NamedTuple):
    """Some grid within the ranges has a triangle whose box touches the box of the ray's segment, first in this cell:
    row * (columns - 1) + column."""

    cell: int


def refusal_of(answer, numbers, ray=None, spent=None):
    """The refusal of a cast of a ray, or of a drill, of these numbers; for refusal 1 with the test that it fails."""
    fault = fault_of(numbers) if REFUSALS.get(answer) == "INVALID_INPUT" else None
    return Refused(answer, ray, spent, fault)


def settled(answer, numbers, hit, spent=None):
    """The hit of a call for a ray of these numbers, or None for a miss; raises Refused."""
    if answer == HIT:
        return hit()
    if answer == NONE:
        return None
    raise refusal_of(answer, numbers, spent=spent)


class Casts:
    """The results of many casts, in the rays' order.

    As a sequence it has a MeshHit or None for each ray, and raises Refused at a ray that was refused. The arrays are views.
    `answers` has the library's numbers. `distances` is infinite for a miss, and NaN for a ray that was refused. `normals` has
    three numbers a ray, NaN if there is no hit; `triangles` is NO_TRIANGLE then. `refused` lists the indices of the rays that
    were refused.
    """

    NO_TRIANGLE = 2**32 - 1

    def __init__(self, answers, distances, normals, triangles, rays):
        self._answers, self._distances, self._normals, self._triangles = answers, distances, normals, triangles
        self._rays = rays  # eight numbers a ray
        # every refusal is below the codes
        some = bool(answers) and min(answers) < HIT
        self.refused = [ray for ray, answer in enumerate(answers) if answer < HIT] if some else []
        self.answers, self.distances = read_only(answers), read_only(distances)
        self.normals, self.triangles = shaped(normals, 3), read_only(triangles)

    def __len__(self):
        return len(self._answers)

    def __getitem__(self, ray):
        ray = range(len(self))[ray]
        answer = self._answers[ray]
        if answer == NONE:
            return None
        if answer != HIT:
            raise refusal_of(answer, self._rays[8 * ray : 8 * ray + 8], ray)
        return MeshHit(self._distances[ray], tuple(self._normals[3 * ray : 3 * ray + 3]), self._triangles[ray])


class Drills:
    """The results of many drills, in the drills' order.

    As a sequence it has None for each drill that is clear, or the lowest index of a triangle that it touches, and raises Refused
    at a drill that was refused. The arrays are views. `answers` has the library's numbers. `triangles` is NO_TRIANGLE where
    nothing is touched. `refused` lists the indices of the drills that were refused.
    """

    NO_TRIANGLE = Casts.NO_TRIANGLE

    def __init__(self, answers, triangles, drills):
        self._answers, self._triangles, self._drills = answers, triangles, drills  # nine numbers a drill
        self.refused = [drill for drill, answer in enumerate(answers) if answer < HIT]
        self.answers, self.triangles = read_only(answers), read_only(triangles)

    def __len__(self):
        return len(self._answers)

    def __getitem__(self, drill):
        drill = range(len(self))[drill]
        numbers = self._drills[9 * drill : 9 * drill + 9]
        if self._answers[drill] not in (HIT, NONE):
            raise refusal_of(self._answers[drill], numbers, drill)
        return self._triangles[drill] if self._answers[drill] == HIT else None


class Results:
    """Where a call of many rays writes its results: for each ray a code, an index and four numbers."""

    def __init__(self, count):
        # the values of a miss: the library writes only the places of a hit
        self.codes, self.hits = zeros("I", count), array("d", [math.nan, math.nan, math.nan, math.inf]) * count
        self.indices = array("I", [Casts.NO_TRIANGLE]) * count
        self.lent = (*lent(self.codes), *lent(self.hits), *lent(self.indices))

    def put(self, ray, answer, hit, index):
        """Stores the result of a single call, as a call of many rays does."""
        self.codes[ray] = answer
        if answer == HIT:
            self.hits[4 * ray : 4 * ray + 4], self.indices[ray] = hit, index

    def casts(self, rays):
        """The results of these rays, eight numbers each."""
        normals, distances = zeros("d", 3 * len(self.codes)), self.hits[3::4]
        for axis in range(3):
            normals[axis::3] = self.hits[axis::4]
        casts = Casts(self.codes, distances, normals, self.indices, rays)
        for ray in casts.refused:
            distances[ray] = math.nan
        return casts
