"""A ray, and the casts at a plane and a triangle."""
import math
from array import array
from typing import NamedTuple, Sequence

from ._arrays import lent, zeros
from ._library import library
from .answers import Hit, settled
from .faults import fault_of


class _Fields(NamedTuple):
    origin: Sequence[float]
    direction: Sequence[float]
    max_distance: float
    near_distance: float = 0.0


class Ray(_Fields):
    """A ray: its origin, its direction (of length 1, within 1e-12), its maximum distance, and the near distance from which on
    surfaces are hit. Anything but three numbers, three numbers and one or two raises TypeError or ValueError.

    >>> from probe_rays import Ray
    >>> Ray("abc", (0, 0, 1), 5)
    Traceback (most recent call last):
    TypeError: must be real number, not str
    """

    __slots__ = ()

    def __new__(cls, origin, direction, max_distance, near_distance=0.0):
        ray = super().__new__(cls, origin, direction, max_distance, near_distance)
        array("d", ray.numbers())  # raises
        return ray

    @classmethod
    def toward(cls, origin, direction, max_distance, near_distance=0.0):
        """A ray with the given direction, of any length, normalised. A direction that cannot be normalised is left as it is, and a
        cast refuses it."""
        # divided by the largest component first, so that no square overflows or vanishes
        largest = max(map(abs, direction))
        if largest > 0 and all(map(math.isfinite, direction)):
            scaled = [part / largest for part in direction]
            length = math.sqrt(sum(part * part for part in scaled))
            direction = tuple(part / length for part in scaled)
        return cls(origin, direction, max_distance, near_distance)

    def at(self, distance):
        """The point at a distance."""
        return tuple(start + part * distance for start, part in zip(self.origin, self.direction))

    def numbers(self):
        """The ray's eight numbers, as a call takes them."""
        x, y, z = self.origin
        dx, dy, dz = self.direction
        return (x, y, z, dx, dy, dz, self.max_distance, self.near_distance)

    def fault(self):
        """The test of refusal 1 that the ray fails, in words, or None if it fails none.

        >>> from probe_rays import Ray
        >>> Ray((0, 0, 0), (0, 0, 2), 5).fault()
        "the direction's length is not 1"
        """
        return fault_of(self.numbers())


def plain(places):
    """A hit from its four places."""
    x, y, z, distance = places
    return Hit(distance, (x, y, z))


def cast_at_shape(call, ray, *shape):
    """The Hit of a call at a shape of these parameters, or None; raises Refused."""
    places, numbers = zeros("d", 4), ray.numbers()
    answer = call(*numbers, *shape, *lent(places))
    return settled(answer, numbers, lambda: plain(places))


def ray_plane(ray, normal, distance):
    """Casts at the plane of all points whose dot product with the normal, of length 1, is the distance. Returns a Hit, whose
    normal faces the ray, or None. Raises Refused with 1, 2 or 6."""
    return cast_at_shape(library.probe_ray_plane_near, ray, *normal, distance)


def ray_triangle(ray, a, b, c):
    """Casts at a triangle, from either side. Returns a Hit, whose normal faces the ray, or None. Raises Refused with 1, 6 or 7."""
    return cast_at_shape(library.probe_ray_triangle_near, ray, *a, *b, *c)
