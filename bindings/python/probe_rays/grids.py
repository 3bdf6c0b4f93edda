"""Height grids, heights within ranges, and distance grids."""
from ._arrays import lent, owned, whole, zeros
from ._library import CLEAR, POSSIBLE, library
from .answers import Possible, refusal_of
from .ray import cast_at_shape


def _numbers(values, count, what):
    """This many numbers."""
    numbers = tuple(values)
    if len(numbers) != count:
        raise ValueError(f"{what}: {len(numbers)} numbers, not {count}")
    return numbers


class HeightField:
    """A height grid: the height of row r and column c is at x = c * spacing[0], y = r * spacing[1]. The heights are rows of
    numbers, or flat, row after row."""

    def __init__(self, heights, rows, columns, spacing):
        self._heights = owned(heights, "d", columns, "heights")
        self._shape = (whole(rows, 64, "rows"), whole(columns, 64, "columns"), *_numbers(spacing, 2, "spacing"))

    def cast(self, ray):
        """The nearest Hit, whose normal faces the ray, or None. Raises Refused with 1, 2, 5, 6 or 7."""
        return cast_at_shape(library.probe_ray_height_field_near, ray, *self._shape, *lent(self._heights))


class HeightRanges:
    """The same grid, with only a low and a high known for each height."""

    def __init__(self, lows, highs, rows, columns, spacing):
        self._lows, self._highs = owned(lows, "d", columns, "lows"), owned(highs, "d", columns, "highs")
        self._shape = (whole(rows, 64, "rows"), whole(columns, 64, "columns"), *_numbers(spacing, 2, "spacing"))

    def cast(self, ray):
        """None if no grid within the ranges has a triangle whose box touches the box of the ray's segment: the height cast is then
        a miss on every such grid. Otherwise Possible, with the first cell of which some grid has one; the height cast need not be
        a hit on any of them. Raises Refused with 1, 2, 6 or 9."""
        cell, numbers = zeros("I", 1), ray.numbers()
        answer = library.probe_ray_height_ranges(
            *numbers, *self._shape, *lent(self._lows), *lent(self._highs), *lent(cell)
        )
        if answer == CLEAR:
            return None
        if answer == POSSIBLE:
            return Possible(cell[0])
        raise refusal_of(answer, numbers)


class LevelSet:
    """A grid of distances from a surface: the distance at node (i, j, k), at origin + (i, j, k) * spacing, is at place
    (k * sides[1] + j) * sides[0] + i of the values. These are flat, or rows along x."""

    def __init__(self, values, sides, origin, spacing):
        self._values = owned(values, "d", sides[0], "values")
        sides = [whole(side, 32, "a side") for side in _numbers(sides, 3, "sides")]
        self._shape = (*sides, *_numbers(origin, 3, "origin"), *_numbers(spacing, 3, "spacing"))

    def cast(self, ray):
        """The Hit at the surface, or None. Its normal points to where the distances grow, and is not turned towards the ray.
        A hit may lie one float past the maximum. Raises Refused with 1, 2, 5, 6 or 8."""
        return cast_at_shape(library.probe_ray_level_set_near, ray, *self._shape, *lent(self._values))
