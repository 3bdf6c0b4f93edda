"""Arrays that the module owns, and the pointers that are passed to the library."""
import ctypes
import operator
import sys
from array import array

assert array("I").itemsize == 4 and array("d").itemsize == 8 and array("Q").itemsize == 8

# what an empty slice points at: never null, and nothing is read or written through it
_SPARE = (ctypes.c_double * 1)()
_SPARE_ADDRESS = ctypes.addressof(_SPARE)

_NATIVE = "<" if sys.byteorder == "little" else ">"


def zeros(code, length):
    return array(code, bytes(array(code).itemsize * length))


def lent(area):
    """The two parameters of a slice: an address and a length. The array must outlive the call, and keep its length."""
    address, length = area.buffer_info()
    return ctypes.c_void_p(address or _SPARE_ADDRESS), ctypes.c_size_t(length)


def whole(number, bits, what):
    """An unsigned integer of this many bits. ctypes would silently truncate a larger one."""
    number = operator.index(number)
    if not 0 <= number < 2**bits:
        raise OverflowError(f"{what}: {number} is not an unsigned integer of {bits} bits")
    return number


def _view(values):
    try:
        return memoryview(values)
    except TypeError:
        return None


def _fill(own, values, width, what, inner=False):
    """Appends the numbers of rows, and of rows of rows. The innermost rows have `width` numbers; a flat row has any number."""
    start, flat = len(own), True
    for value in values:
        if hasattr(value, "__iter__"):
            _fill(own, value, width, what, inner=True)
            flat = False
        else:
            own.append(value)
    if inner and flat and len(own) - start != width:
        raise ValueError(f"{what}: a row has {len(own) - start} numbers, not {width}")


def owned(values, code, width, what):
    """A copy as an array: of a buffer, of rows of `width` numbers, or of a flat row of numbers."""
    view = _view(values)
    own = array(code)
    if view is not None:
        if view.ndim > 1 and view.shape[-1] != width:
            raise ValueError(f"{what}: a row has {view.shape[-1]} numbers, not {width}")
        if view.format.lstrip("@=" + _NATIVE) == code and view.c_contiguous:
            if view.nbytes:
                own.frombytes(view.cast("B"))
            return own
    _fill(own, values, width, what)
    return own


def shaped(area, width):
    """A read-only view, in rows of `width` numbers."""
    if not area:
        return memoryview(area).toreadonly()
    return memoryview(area).cast("B").cast(area.typecode, (len(area) // width, width)).toreadonly()


def read_only(area):
    return memoryview(area).toreadonly()
