"""Records of the program `probe`, from floats of eight bytes to floats of four, and back."""
from array import array

from ._arrays import lent, zeros
from ._library import CODES, DONE, library
from .answers import Refused


def _converted(call, record):
    given, out, written = array("B", bytes(record)), zeros("B", CODES["MAX_RECORD"]), zeros("Q", 1)
    answer = call(*lent(given), *lent(out), *lent(written))
    if answer != DONE:
        raise Refused(answer)
    return out[: written[0]].tobytes()


def record_to_short(record):
    """Converts one record of version 2, with its four length bytes, to version 3, whose floats have four bytes. Raises Refused
    with 2, or with 11 if a float is NaN or no f32 is exactly that number."""
    return _converted(library.probe_record_to_short, record)


def record_to_long(record):
    """Converts one record of version 3 to version 2. Raises Refused with 2, or with 11 if a float is NaN."""
    return _converted(library.probe_record_to_long, record)
