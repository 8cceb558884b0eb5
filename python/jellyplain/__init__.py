"""A move by two poses, or a chain of up to 32: where a point of it stands at a time, and which box holds a box of it at every time.

Functions over the library jellyplain, whose contracts are proved (crates/api); this package itself is not. A move is built once and asked
many times:

    >>> from jellyplain import IDENTITY, Bounds, Move, Pose, Refused
    >>> one_metre_along_x = ((1, 0, 0, 1), *IDENTITY[1:])
    >>> m = Move(Pose(0, IDENTITY), Pose(1, one_metre_along_x))
    >>> m.point(0.5, (0, 0, 0))
    (0.5, 0.0, 0.0)

The box that is reserved: every point of `boom` is inside `cover` at every time.

    >>> boom = Bounds((0, 0, 0), (0, 2, 0))
    >>> cover = m.cover(boom, depth=10)
    >>> cover.contains(m.point(0.75, (0, 1.5, 0)))
    True
    >>> m.cover(boom, depth=13)
    Traceback (most recent call last):
    jellyplain.Refused: refused with 8: the depth is above 12

Which rows the boom may wet, and when: bit w of a row's mask stands for the window from tick w to the next.

    >>> from jellyplain import cut
    >>> inf = float("inf")
    >>> rows = [Bounds((x, 0, 0), (x + 0.125, 2, 0)) for x in (0.0, 0.5, 2.0)]
    >>> m.reach(cut(boom, 4), 8, [-inf, 0.25, inf], rows)
    [1, 2, 0]

What can't be worked with is refused: `Refused` has the number and its text, `Refusal` all of them. Any floats may be handed in, NaN and
infinities included; they are rounded to the nearest of 32 bits, and to an infinity beyond the greatest. What the library has no number for
is a ValueError, such as two coordinates or a depth of -1, or a TypeError, before any call.

The shared library is found as `load` says, at the first call that needs it. Calls need no lock, keep nothing between them and give up the
interpreter's lock while they run; a call takes at most 96 kB of stack. What the guarantee asks of the thread's floating-point environment
is in c/jellyplain.h, and `thread_rounds_as_started` looks at it.
"""
from ._library import LibraryError, load
from ._moves import Chain, Move
from ._questions import cut, reached_rows, starting_ticks, thread_rounds_as_started, version
from ._refusal import Refusal, Refused
from ._values import IDENTITY, Boom, Bounds, Covers, Matrix, MotionBounds, MoveFile, Pose, Transform, Vector
from ._version import __version__

_CLASSES = (Boom, Bounds, Chain, Covers, LibraryError, MotionBounds, Move, MoveFile, Pose, Refusal, Refused, Transform)
_FUNCTIONS = (cut, load, reached_rows, starting_ticks, thread_rounds_as_started, version)
# What is public is named by the package, in messages too, and not by the module that it stands in.
for _public in _CLASSES + _FUNCTIONS:
    _public.__module__ = __name__

__all__ = [
    "IDENTITY", "Boom", "Bounds", "Chain", "Covers", "LibraryError", "Matrix", "MotionBounds", "Move", "MoveFile", "Pose", "Refusal", "Refused",
    "Transform", "Vector", "__version__", "cut", "load", "reached_rows", "starting_ticks", "thread_rounds_as_started", "version",
]
