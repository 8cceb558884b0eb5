"""Moves and chains: built once, asked many times."""
from __future__ import annotations

import ctypes
from array import array
from typing import TYPE_CHECKING, Any, Iterable, List, Optional, Sequence, Tuple, Type, TypeVar, final, overload

from ._buffers import at_most, lent, lent_for_answers
from ._library import BOXES, ROWS, TEXT, WINDOWS, Box, Counts, Halves, Moves, Point, Rows, functions
from ._refusal import checked
from ._values import Bounds, Covers, MotionBounds, Pose, Transform, Vector, bounds_of, box_array, box_arrays, point_array, pose_structs, transform_of

if TYPE_CHECKING:
    from typing_extensions import Buffer

    from ._buffers import Floats

    Out = TypeVar("Out", bound=Buffer)


def _depth(depth: int) -> int:
    return at_most(depth, 32, "depth")


def _time(time: float) -> ctypes.c_float:
    """TypeError for what is no number."""
    return ctypes.c_float(time)


Kind = TypeVar("Kind", bound="_Built")


class _Built:
    """What building leaves: the library's floats, which nobody else writes, and the poses that they were built of."""

    __slots__ = ("_moves", "poses", "rigid")

    _moves: Any
    poses: Tuple[Pose, ...]
    rigid: bool

    def __setattr__(self, name: str, value: object) -> None:
        raise AttributeError("a built %s can't be changed" % type(self).__name__.lower())

    def __delattr__(self, name: str) -> None:
        raise AttributeError("a built %s can't be changed" % type(self).__name__.lower())

    def __copy__(self) -> Any:
        return self

    def __deepcopy__(self, memo: Any) -> Any:
        return self

    # What is unpickled is built again.
    def __reduce__(self) -> Any:
        return _rebuilt, (type(self), self.poses, self.rigid)

    def __repr__(self) -> str:
        kind = "rigid " if self.rigid else ""
        return "<%s%s of %d poses from %r to %r>" % (kind, type(self).__name__, len(self.poses), self.poses[0].time, self.poses[-1].time)


def _kept(kind: Type[Kind], moves: Any, poses: Tuple[Pose, ...], rigid: bool) -> Kind:
    """What was built, as a value that can't be changed any more."""
    built = object.__new__(kind)
    for name, value in (("_moves", moves), ("poses", poses), ("rigid", rigid)):
        object.__setattr__(built, name, value)
    return built


def _reach(moves: Any, count: int, boxes: Iterable[Bounds], depth: int, ticks: Floats, rows: Iterable[Bounds]) -> List[int]:
    boom, given, field, masks = tuple(boxes), lent(ticks, "ticks"), tuple(rows), (ctypes.c_uint64 * ROWS)()
    checked(functions().moves_reach(
        moves, count, box_arrays(boom), len(boom), _depth(depth), given.address, given.count, box_arrays(field), len(field), masks))
    return masks[:len(field)]


@final
class Move(_Built):
    """The move from one pose to another: pbrt's `AnimatedTransform`. It is only made by building it, here or as a move of a `Chain`, and
    can't be changed, so that the guarantee of `cover` holds of every one.

    A boom that neither stretches nor shears may be built as rigid: between the poses a turn and a shift alone, so that its covers are
    tighter. Refused with 1, 2, 16, 3, a rigid one with 17 and 18, pose by pose, then 4 or 5, whichever is met first.

    `poses` are the two poses and `rigid` the kind that it was built with.
    """

    __slots__ = ()

    def __new__(cls, start: Pose, end: Pose, *, rigid: bool = False) -> Move:
        moves, (first, second) = Rows(), pose_structs((start, end))
        checked(functions().build(rigid, ctypes.byref(first), ctypes.byref(second), moves))
        return _kept(cls, moves, (start, end), bool(rigid))

    def point(self, time: float, p: Sequence[float]) -> Vector:
        """Where a point stands at a time; before the start and after the end, where that pose has it.

        Refused with 6, then 5. ValueError unless p is three numbers.
        """
        moved = Point()
        checked(functions().point(self._moves, _time(time), point_array(p), moved))
        return tuple(moved)  # type: ignore[return-value]

    def pad(self, time: float) -> float:
        """The pad at a time: between the times lerp of the two poses' pads, before and after them that pose's own, the larger throughout
        where the poses are equal.

        Refused with 6, then 5.
        """
        pad = ctypes.c_float()
        checked(functions().pad(self._moves, _time(time), ctypes.byref(pad)))
        return pad.value

    def interpolate(self, time: float) -> Transform:
        """The transform at a time. Refused with 6, then 4 or 5."""
        halves = Halves()
        checked(functions().interpolate(self._moves, _time(time), halves))
        return transform_of(halves[:])

    def bound_point_motion(self, p: Sequence[float]) -> MotionBounds:
        """pbrt's motion box of a point. It is no cover. Refused with 6, then 5 or 9, whichever is met first. ValueError unless p is three
        numbers.
        """
        box, examined = Box(), Counts()
        checked(functions().bound_point_motion(self._moves, point_array(p), box, examined))
        return MotionBounds(bounds_of(box[:]), tuple(examined))  # type: ignore[arg-type]

    def motion_bounds(self, b: Bounds) -> MotionBounds:
        """pbrt's motion box of a box. It is no cover. Refused with 6, 7, then 5 or 9, whichever is met first."""
        box, examined = Box(), Counts()
        checked(functions().motion_bounds(self._moves, box_array(b), box, examined))
        return MotionBounds(bounds_of(box[:]), tuple(examined))  # type: ignore[arg-type]

    def cover(self, b: Bounds, depth: int = 10) -> Bounds:
        """A box that holds every point of `b` at every time but NaN: `point` answers a point inside it, and so it is less and plus `pad` on
        each axis, each rounded to 32 bits.

        It is from 2^depth slices of the move; a depth more, up to 12, costs twice as much, is not refused where the lesser was accepted,
        and its box lies in the lesser's. Its zeros are +0. Refused with 6, 7 and 8, in this order, then with 5 or 10, whichever is met
        first. ValueError for a depth below zero.
        """
        box = Box()
        checked(functions().cover(self._moves, box_array(b), _depth(depth), box))
        return bounds_of(box[:])

    def reach(self, boxes: Iterable[Bounds], depth: int, ticks: Floats, rows: Iterable[Bounds]) -> List[int]:
        """Which rows the boxes may wet, and in which windows, as `Chain.reach` says of a chain."""
        return _reach(self._moves, 1, boxes, depth, ticks, rows)


@final
class Chain(_Built):
    """The chain of 2 to 32 poses whose times rise strictly. It is only made by building it or by `join`, and can't be changed, so that the
    guarantee of `cover` holds of every one.

    Built as rigid, each of its moves is as a rigid `Move`. Refused with 1, 2, 16, 12, 3, of a rigid chain 17 and 18, pose by pose, then 4
    or 5, whichever is met first.

    `poses` are the poses and `rigid` the kind that it was built with.
    """

    __slots__ = ()

    def __new__(cls, poses: Iterable[Pose], *, rigid: bool = False) -> Chain:
        given, moves = tuple(poses), Moves()
        checked(functions().build_moves(rigid, pose_structs(given), len(given), moves))
        return _kept(cls, moves, given, bool(rigid))

    @staticmethod
    def refused_run(poses: Iterable[Pose], *, rigid: bool = False) -> range:
        """Of poses that building refuses, the places of the shortest run of neighbouring ones that is refused with the same number, the
        leftmost among equals: one pose, as a move from it to itself, or two.

        An empty range where the poses are a chain. Refused with 12, where they are refused with it.
        """
        given = tuple(poses)
        run = functions().refused_run(rigid, pose_structs(given), len(given))
        checked(run.refusal)
        return range(run.place, run.place + run.length)

    @property
    def _count(self) -> int:
        return len(self.poses) - 1

    @property
    def moves(self) -> Tuple[Move, ...]:
        """The moves, one fewer than the poses: the one at place i goes from pose i to the next. They stand in the chain's own memory."""
        return tuple(_kept(Move, self._moves[i], self.poses[i:i + 2], self.rigid) for i in range(self._count))

    def join(self, other: Chain) -> Chain:
        """One chain of this one and another, with the pose that they share once. Up to the shared time it answers as this chain, above it
        as the other, and its cover is the union of theirs.

        Refused with 20 where the last pose here and the first there differ in a bit of time, matrix or pad, a zero's sign too, or one chain
        is rigid and the other isn't, then with 12 for more than 32 poses.
        """
        moves = Moves()
        checked(functions().moves_join(self._moves, self._count, other._moves, other._count, moves))
        return _kept(Chain, moves, self.poses + other.poses[1:], self.rigid)

    def point(self, time: float, p: Sequence[float]) -> Vector:
        """Where a point stands at a time. A time equal to an inner pose's belongs to the earlier move, times outside to the first and the
        last.

        Refused with 6, then 5. ValueError unless p is three numbers.
        """
        moved = Point()
        checked(functions().moves_point(self._moves, self._count, _time(time), point_array(p), moved))
        return tuple(moved)  # type: ignore[return-value]

    def pad(self, time: float) -> float:
        """The pad at a time, of the move that the time belongs to. Refused with 6, then 5."""
        pad = ctypes.c_float()
        checked(functions().moves_pad(self._moves, self._count, _time(time), ctypes.byref(pad)))
        return pad.value

    def interpolate(self, time: float) -> Transform:
        """The transform at a time, of the move that the time belongs to. Its matrix applied to a point, in 32-bit floats and from the left,
        is what `point` answers, bit for bit.

        Refused with 6, then 4 or 5, also where points are answered: between two poses the scale on the way may have no inverse, or its
        inverse may leave the range of floats, and a point needs none.
        """
        halves = Halves()
        checked(functions().moves_interpolate(self._moves, self._count, _time(time), halves))
        return transform_of(halves[:])

    @overload
    def points(self, times: Floats, p: Sequence[float]) -> array[float]: ...

    @overload
    def points(self, times: Floats, p: Sequence[float], out: Out) -> Out: ...

    def points(self, times: Floats, p: Sequence[float], out: Optional[Any] = None) -> Any:
        """Where a point stands at each time of a list that never falls: three floats a time, x y z, in one call.

        `times` is a sequence of numbers or a buffer of one dimension. A buffer of 32-bit floats, format 'f', is lent to the library without
        a copy where it is contiguous and writable: `array('f')`, NumPy's float32. The answers go into a new `array('f')`, or into the
        buffer `out`, three 32-bit floats a time in any shape, which is answered. Nobody may write to a lent buffer during the call, since
        other threads run meanwhile.

        Refused with 6 and 13, then 5; `out` is then as it was. ValueError unless p is three numbers and `out` is so many floats, writable,
        contiguous and apart from `times`.
        """
        given = lent(times, "times")
        answer = array("f", bytes(12 * given.count)) if out is None else out
        places = lent_for_answers(answer, 3 * given.count, "out")
        if given.overlaps(places):
            raise ValueError("out: it overlaps the times")
        checked(functions().moves_points(self._moves, self._count, given.address, given.count, point_array(p), places.address, places.count))
        return answer

    def cover(self, b: Bounds, depth: int = 10) -> Bounds:
        """A box that holds every point of `b` at every time but NaN: `point` and `points` answer points inside it, and so they are less and
        plus `pad` on each axis, each rounded to 32 bits.

        It is from 2^depth slices of each move, with depths as for `Move.cover`, and its zeros are +0. Refused with 6, 7 and 8, in this
        order, then with 5 or 10, whichever is met first. ValueError for a depth below zero.
        """
        box = Box()
        checked(functions().moves_cover(self._moves, self._count, box_array(b), _depth(depth), box))
        return bounds_of(box[:])

    def covers(self, boxes: Iterable[Bounds], depth: int = 10) -> Covers:
        """The covers of 1 to 16 boxes, each as `cover` gives it, and their union.

        Refused with 14, then as `cover` of the first box in order that is refused. ValueError for a depth below zero.
        """
        given, covers, union = tuple(boxes), (Box * BOXES)(), Box()
        checked(functions().moves_covers(self._moves, self._count, box_arrays(given), len(given), _depth(depth), covers, union))
        return Covers(tuple(bounds_of(cover[:]) for cover in covers[:len(given)]), bounds_of(union[:]))

    def try_pose(self, place: int, pose: Pose, b: Bounds, depth: int = 10) -> Bounds:
        """The cover of `b` if the pose at a place, counted from 0, were this one: the same as that of a chain built with it. Only the moves
        beside the place are built, and the chain stays as it is.

        Refused with 19 for a place beyond the last pose, then with 1, 2, 16, 12, 3, of a rigid chain 17 and 18, then 4 or 5 of the changed
        poses, then as `cover`. ValueError for a place or a depth below zero.
        """
        box, (struct,) = Box(), pose_structs((pose,))
        checked(functions().moves_try(self._moves, self._count, at_most(place, 64, "place"), ctypes.byref(struct), box_array(b), _depth(depth), box))
        return bounds_of(box[:])

    def window_cover(self, b: Bounds, earlier: float, later: float, depth: int = 10) -> Bounds:
        """A box that holds every point of `b` at every time from one tick to a later one, both included, as `cover` does at all times.
        Ticks may be infinite. Its zeros are +0.

        Refused with 21 where the ticks don't rise, then as `cover`. ValueError for a depth below zero.
        """
        box = Box()
        checked(functions().moves_window_cover(self._moves, self._count, box_array(b), _depth(depth), _time(earlier), _time(later), box))
        return bounds_of(box[:])

    def windows(self, other: Chain, b: Bounds, c: Bounds, ticks: Floats, depth: int = 10) -> Tuple[int, ...]:
        """The windows between neighbouring ticks, counted from 0, in which the boxes that hold `b` here and `c` there meet, touching
        included.

        In any other window, ticks included, no point of `b` and none of `c`, each less or plus its pad or anything between, are ever at the
        same place; a greater depth, up to 12, lists no other. `ticks` are 2 to 64, as `times` of `points` are given. Refused with 21 of the
        ticks, 6 and 7 of `b`, 6 and 7 of `c`, 8, then 5 and 10, the earlier window first, then this chain. ValueError for a depth below
        zero.
        """
        given, places = lent(ticks, "ticks"), (ctypes.c_uint32 * WINDOWS)()
        answer = functions().moves_windows(
            self._moves, self._count, other._moves, other._count, box_array(b), box_array(c), _depth(depth), given.address, given.count, places)
        checked(answer.refusal)
        return tuple(places[:answer.count])

    def reach(self, boxes: Iterable[Bounds], depth: int, ticks: Floats, rows: Iterable[Bounds]) -> List[int]:
        """Which of 1 to 256 rows a boom of 1 to 16 boxes may wet, and in which windows between neighbouring ticks: a mask for each row.

        Bit w of a mask is 1 exactly where the row is named in window w, counted from 0: `mask >> w & 1`. A row is named where it meets,
        touching included, one of the boxes whose union is `window_cover` of that window for one of `boxes`. So the rows whose mask isn't 0
        are the map, and their bits the schedule. `ticks` are 2 to 64, as `times` of `points` are given, and may be infinite: minus and plus
        infinity alone are one window, all time.

        In a row that isn't named in a window there is no point of any of the boxes at any time of the window, both ticks included, less or
        plus its pad or anything between. A greater depth, up to 12, is not refused where a lesser was accepted, and each of its masks is a
        part of the lesser's. A boom in parts, as `cut` makes them, has fewer rows named than the whole box.

        Refused with 14 of the boxes, 14 of the rows, 21 of the ticks, 6 and 7 of the first box in order that is refused, then of the first
        row, 8, then 5 or 10 of the first window that is refused, and in it of the first box. ValueError for a depth below zero.
        """
        return _reach(self._moves, self._count, boxes, depth, ticks, rows)

    def write(self, b: Bounds) -> bytes:
        """The move file of the chain's poses and a box, in the one way that it is written: `MoveFile.read` gives the same bits back, a
        bottom row's zeros as +0. It doesn't say whether the chain is rigid.

        Refused with 6, then 7.
        """
        out = (ctypes.c_uint8 * TEXT)()
        answer = functions().write_file(self._moves, self._count, box_array(b), out, TEXT)
        checked(answer.refusal)
        return bytes(out[:answer.count])


def _rebuilt(kind: Any, poses: Tuple[Pose, ...], rigid: bool) -> Any:
    return Chain(poses, rigid=rigid) if kind is Chain else Move(*poses, rigid=rigid)
