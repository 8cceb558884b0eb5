"""What goes in and comes out: poses, boxes and answers, none of which can be changed."""
from __future__ import annotations

import math
from dataclasses import dataclass
from decimal import ROUND_CEILING, ROUND_FLOOR, Context, Decimal
from typing import Any, Iterable, Sequence, Tuple

from ._buffers import above, at_most, below, exactly, rounded
from ._library import FILE_POSES, Box, Point, PoseStruct, functions
from ._refusal import checked

Vector = Tuple[float, float, float]
Row = Tuple[float, float, float, float]
Matrix = Tuple[Row, Row, Row, Row]

IDENTITY: Matrix = ((1.0, 0.0, 0.0, 0.0), (0.0, 1.0, 0.0, 0.0), (0.0, 0.0, 1.0, 0.0), (0.0, 0.0, 0.0, 1.0))


def _matrix(rows: Iterable[Iterable[float]]) -> Matrix:
    given = tuple(exactly(row, 4, "a row of a matrix") for row in rows)
    if len(given) != 4:
        raise ValueError("a matrix: 4 rows are wanted, and there are %d" % len(given))
    return given  # type: ignore[return-value]


def _rows(entries: Sequence[float]) -> Matrix:
    return tuple(tuple(entries[i:i + 4]) for i in range(0, 16, 4))  # type: ignore[return-value]


def point_array(p: Any) -> Any:
    return Point(*exactly(p, 3, "a point"))


@dataclass(frozen=True)
class Pose:
    """A matrix of four rows at a time, and a pad of at least zero: how far beyond the boom the spray wets the ground then.

    Each number is rounded to the nearest float of 32 bits, so that what is read here is what the library has. Any numbers make a pose, NaN
    and infinities too: building refuses what can't be worked with. ValueError for a matrix that isn't four rows of four.
    """

    time: float
    matrix: Matrix
    pad: float = 0.0

    def __post_init__(self) -> None:
        object.__setattr__(self, "time", rounded(self.time))
        object.__setattr__(self, "matrix", _matrix(self.matrix))
        object.__setattr__(self, "pad", rounded(self.pad))


def pose_structs(poses: Sequence[Pose]) -> Any:
    structs = (PoseStruct * len(poses))()
    for struct, pose in zip(structs, poses):
        struct.time, struct.pad = pose.time, pose.pad
        struct.matrix[:] = [entry for row in pose.matrix for entry in row]
    return structs


def _decimal(value: float, places: int, rounding: str) -> str:
    """A number exactly, and then rounded; a zero has no sign."""
    if places < 0:
        raise ValueError("a decimal has no fewer digits behind its point than none, and not %d" % places)
    if not math.isfinite(value):
        return str(value)
    rounded = Decimal(value).quantize(Decimal(1).scaleb(-places), rounding, Context(prec=60 + places))
    return format(rounded if rounded else abs(rounded), "f")


@dataclass(frozen=True)
class Bounds:
    """A box: its least corner and its greatest.

    Each number is rounded to the nearest float of 32 bits, so that what is read here is what the library has; `Bounds.outward` rounds so
    that nothing of a box is lost. Any numbers make a box: asking refuses what can't be worked with. ValueError for a corner that isn't
    three numbers.
    """

    p_min: Vector
    p_max: Vector

    def __post_init__(self) -> None:
        object.__setattr__(self, "p_min", exactly(self.p_min, 3, "a corner of a box"))
        object.__setattr__(self, "p_max", exactly(self.p_max, 3, "a corner of a box"))

    @classmethod
    def outward(cls, p_min: Iterable[float], p_max: Iterable[float]) -> Bounds:
        """The smallest box of 32-bit floats that holds a box of any numbers: the least corner rounded down, the greatest up."""
        return cls(tuple(map(below, p_min)), tuple(map(above, p_max)))  # type: ignore[arg-type]

    def decimals(self, places: int = 3) -> Tuple[str, str, str, str, str, str]:
        """The six numbers as decimals with that many digits behind the point: the least corner rounded down, the greatest up, so that the
        text names no smaller box. `%g`, `%f` and `round` go to the nearest, which may be inward. ValueError for fewer digits than none.
        """
        x0, y0, z0 = (_decimal(value, places, ROUND_FLOOR) for value in self.p_min)
        x1, y1, z1 = (_decimal(value, places, ROUND_CEILING) for value in self.p_max)
        return x0, y0, z0, x1, y1, z1

    def contains(self, p: Sequence[float]) -> bool:
        """Whether a point, whose numbers are not rounded, is inside on all three axes, the faces included. ValueError for another count of
        numbers.
        """
        x, y, z = p
        return all(low <= value <= high for low, value, high in zip(self.p_min, (x, y, z), self.p_max))


def box_array(b: Bounds) -> Any:
    return Box(*b.p_min, *b.p_max)


def box_arrays(boxes: Sequence[Bounds], room: int = 0) -> Any:
    """Boxes side by side, with zeros up to `room` of them."""
    return (Box * max(len(boxes), room))(*map(box_array, boxes))


def bounds_of(floats: Sequence[float]) -> Bounds:
    return Bounds(tuple(floats[0:3]), tuple(floats[3:6]))  # type: ignore[arg-type]


@dataclass(frozen=True)
class MotionBounds:
    """pbrt's motion box, which is no cover, and how many intervals its search examined on x, y and z: what it cost."""

    bounds: Bounds
    examined: Tuple[int, int, int]


@dataclass(frozen=True)
class Transform:
    """A matrix and its inverse, the two halves of pbrt's `Transform`."""

    matrix: Matrix
    inverse: Matrix


def transform_of(floats: Sequence[float]) -> Transform:
    return Transform(_rows(floats[:16]), _rows(floats[16:]))


@dataclass(frozen=True)
class Covers:
    """The answer to a set of boxes: a cover for each, in their order, and the union of them."""

    each: Tuple[Bounds, ...]
    union: Bounds


@dataclass(frozen=True)
class Boom:
    """A boom of a day: its chain's cover, and for how many ticks it runs, 2^32 - 1 for all that are more. ValueError for ticks below
    zero.
    """

    cover: Bounds
    ticks: int

    def __post_init__(self) -> None:
        object.__setattr__(self, "ticks", at_most(self.ticks, 32, "ticks"))


@dataclass(frozen=True)
class MoveFile:
    """What a move file holds: any number of poses, and a box. Whether a chain can be built of the poses is asked by `Chain`."""

    poses: Tuple[Pose, ...]
    bounds: Bounds

    @classmethod
    def read(cls, data: Any) -> MoveFile:
        """Reads a file's bytes (bytes or any buffer of them), whatever its spaces and the case of its digits; with the old thirteen names
        the pads are +0.

        Refused with 11.
        """
        text = memoryview(data).tobytes()
        structs, box = (PoseStruct * FILE_POSES)(), Box()
        answer = functions().read_file(text, len(text), structs, box)
        checked(answer.refusal)
        return cls(tuple(Pose(pose.time, _rows(pose.matrix[:]), pose.pad) for pose in structs[:answer.count]), bounds_of(box[:]))
