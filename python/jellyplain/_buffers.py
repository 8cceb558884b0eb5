"""Numbers on their way into the library: sequences are copied as 32-bit floats, buffers of such floats are lent as they are."""
from __future__ import annotations

import ctypes
import operator
import struct
import sys
from array import array
from typing import TYPE_CHECKING, Any, NamedTuple, Sequence, Tuple, Union

if TYPE_CHECKING:
    from typing_extensions import Buffer

    Floats = Union[Sequence[float], Buffer]

# Buffers of 32-bit floats in the machine's own order, as `array`, NumPy and ctypes name them.
_FORMATS = {"f", "@f", "=f", "<f" if sys.byteorder == "little" else ">f"}
_BYTES = {"b", "B", "c"}


def rounded(value: float) -> float:
    """The nearest float of 32 bits; beyond the greatest an infinity. TypeError for what is no number."""
    return ctypes.c_float(value).value


def _stepped(value: float, up: bool) -> float:
    """The next float of 32 bits above or below one that is neither NaN nor the infinity on that side."""
    bits = struct.unpack("<i", struct.pack("<f", value))[0]
    if value == 0:
        bits = 1 if up else -0x7FFFFFFF
    else:
        bits += 1 if (value > 0) == up else -1
    return float(struct.unpack("<f", struct.pack("<i", bits))[0])


def below(value: float) -> float:
    """The greatest float of 32 bits that is not above a number; NaN for NaN."""
    near = rounded(value)
    return _stepped(near, False) if near > value else near


def above(value: float) -> float:
    """The least float of 32 bits that is not below a number; NaN for NaN."""
    near = rounded(value)
    return _stepped(near, True) if near < value else near


def exactly(values: Any, count: int, what: str) -> Tuple[float, ...]:
    """So many numbers, rounded; ValueError for another count."""
    items = tuple(values)
    if len(items) != count:
        raise ValueError("%s: %d numbers are wanted, and there are %d" % (what, count, len(items)))
    return tuple(map(rounded, items))


def at_most(value: int, bits: int, what: str) -> int:
    """A whole number for the library, which refuses all that are too large: one beyond its type becomes the greatest of it. ValueError
    below zero.
    """
    number = operator.index(value)
    if number < 0:
        raise ValueError("%s: %d is below zero" % (what, number))
    return min(number, 2 ** bits - 1)


class Lent(NamedTuple):
    """Where the library finds so many floats; `keeper` holds the buffer, which can't be resized as long as it does."""

    keeper: Any
    address: int
    count: int

    def overlaps(self, other: Lent) -> bool:
        return self.address < other.address + 4 * other.count and other.address < self.address + 4 * self.count


def _is_floats(view: memoryview) -> bool:
    return view.format in _FORMATS and view.itemsize == 4


def _over(view: memoryview) -> Lent:
    """A writable and contiguous buffer itself, or a place of no floats."""
    keeper = ctypes.c_float.from_buffer(view) if view.nbytes else ctypes.c_float()
    return Lent(keeper, ctypes.addressof(keeper), view.nbytes // 4)


def lent(values: Floats, what: str) -> Lent:
    """Floats that the library reads.

    No copy is made of a buffer of 32-bit floats that is contiguous, aligned and writable (ctypes lends no other); other buffers and
    sequences are copied, each number rounded. ValueError for a buffer of more than one dimension, TypeError for one of bytes.
    """
    try:
        view = memoryview(values)  # type: ignore[arg-type]
    except TypeError:
        return _over(memoryview(array("f", values)))  # type: ignore[arg-type]
    if view.format in _BYTES:
        raise TypeError("%s: a buffer of floats is wanted, and this one is of bytes" % what)
    if view.ndim != 1:
        raise ValueError("%s: one dimension is wanted, and the buffer has %d" % (what, view.ndim))
    if not _is_floats(view):
        return _over(memoryview(array("f", tuple(values))))  # type: ignore[arg-type]
    if view.contiguous and not view.readonly:
        given = _over(view)
        if given.address % 4 == 0:
            return given
    return _over(memoryview(array("f", view.tobytes())))


def lent_for_answers(out: Buffer, count: int, what: str) -> Lent:
    """A buffer that the library writes. ValueError unless it is so many 32-bit floats, contiguous, aligned and writable; of any shape."""
    view = memoryview(out)
    if not _is_floats(view):
        raise ValueError("%s: a buffer of 32-bit floats, format 'f', is wanted, and this one has format %r" % (what, view.format))
    if view.readonly or not view.c_contiguous:
        raise ValueError("%s: the buffer has to be writable and contiguous" % what)
    if view.nbytes != 4 * count:
        raise ValueError("%s: %d floats are wanted, and the buffer has %d" % (what, count, view.nbytes // 4))
    given = _over(view)
    if given.address % 4:
        raise ValueError("%s: the buffer's address is no multiple of 4" % what)
    return given
