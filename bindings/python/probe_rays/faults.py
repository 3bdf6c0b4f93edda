"""The test of refusal 1 that a ray or a drill fails, in the words of the Rust crate and the C++ header."""
import math

# the squares whose roots are not more than 1e-12 from 1
_UNIT_SQUARES = (0.999999999998, 1.000000000002)


def fault_of(numbers):
    """The test that a ray of these eight numbers fails, or a drill, whose ninth is the radius; None if it fails none."""
    origin, direction, (most, near), radius = numbers[:3], numbers[3:6], numbers[6:8], numbers[8:]
    square = sum(part * part for part in direction)
    tests = (
        (any(map(math.isnan, origin)), "the origin has a NaN"),
        (any(map(math.isinf, origin)), "the origin is infinite"),
        (any(map(math.isnan, direction)), "the direction has a NaN"),
        (any(map(math.isinf, direction)), "the direction is infinite"),
        (not any(direction), "the direction is zero"),
        (not _UNIT_SQUARES[0] <= square <= _UNIT_SQUARES[1], "the direction's length is not 1"),
        (math.isnan(most), "the maximum is NaN"),
        (most == math.inf, "the maximum is infinite"),
        (most < 0, "the maximum is below 0"),
        (math.isnan(near), "the near distance is NaN"),
        (near < 0, "the near distance is below 0"),
        (near > most, "the near distance is above the maximum"),
        (any(map(math.isnan, radius)), "the radius is NaN"),
        (any(part < 0 for part in radius), "the radius is below 0"),
        (any(map(math.isinf, radius)), "the radius is infinite"),
    )
    return next((words for failed, words in tests if failed), None)
