"""What a plan is: booms with their poses, rows and nets, every number an exact fraction in metres, seconds or degrees of the plan's own frame."""
import math
from dataclasses import dataclass
from decimal import Decimal
from fractions import Fraction
from functools import cached_property
from typing import NamedTuple, Optional

import turns

AXES = "xyz"


def decimal(value):
    return Decimal(value.numerator) / Decimal(value.denominator)


def lerp(a, b, share):
    return a + (b - a) * share


class Heading(NamedTuple):
    """A turn about the upright axis, against the clock seen from above, after a tilt that raises the boom's far end; in degrees."""
    heading: Fraction
    tilt: Fraction

    def matrix(self):
        level, raised = [turns.rotation(decimal(angle), axis) for angle, axis in ((self.heading, (0, 0, 1)), (-self.tilt, (0, 1, 0)))]
        return [[sum(level[i][k] * raised[k][j] for k in range(3)) for j in range(3)] for i in range(3)]

    def turn_to(self, other):
        """How far it is to another, as set: the greater of the two changes."""
        return max(abs(other.heading - self.heading), abs(other.tilt - self.tilt))

    def between(self, other, share):
        return Heading(lerp(self.heading, other.heading, share), lerp(self.tilt, other.tilt, share))


class AxisAngle(NamedTuple):
    """A turn by the right-hand rule about any axis, in degrees."""
    degrees: Fraction
    axis: tuple

    def matrix(self):
        return turns.rotation(decimal(self.degrees), [decimal(n) for n in self.axis])

    def turn_to(self, other):
        """As set about one axis; about two axes nothing is known but the matrices."""
        return abs(other.degrees - self.degrees) if other.axis == self.axis else Fraction(0)

    def between(self, other, share):
        return AxisAngle(lerp(self.degrees, other.degrees, share), self.axis) if other.axis == self.axis else None


class Matrix(NamedTuple):
    """Three rows, as they are given."""
    rows: tuple

    def matrix(self):
        return self.rows

    def turn_to(self, other):
        return Fraction(0)

    def between(self, other, share):
        return None


def least_turn(a, b):
    """The angle in degrees between two poses' frames, each column made one long; only to tell where it comes near 180."""
    columns = [[[float(m[i][j]) for i in range(3)] for j in range(3)] for m in (a, b)]
    lengths = [[math.hypot(*column) for column in three] for three in columns]
    if not all(0 < length < math.inf for three in lengths for length in three):
        return 0.0
    trace = sum(sum(u * v for u, v in zip(*pair)) / (n * m) for pair, n, m in zip(zip(*columns), *lengths))
    return math.degrees(math.acos(min(1.0, max(-1.0, (trace - 1) / 2))))


@dataclass(frozen=True)
class Pose:
    """Where the boom's own origin stands at a time, how it is turned, and how far beyond the boom the spray reaches."""
    time: Fraction
    at: tuple
    turn: object
    pad: Fraction

    def between(self, other, share):
        """The pose at a share of the way, or None where the way of the turn isn't known."""
        turn = self.turn.between(other.turn, share) if type(self.turn) is type(other.turn) else None
        place = tuple(lerp(a, b, share) for a, b in zip(self.at, other.at))
        return turn and Pose(lerp(self.time, other.time, share), place, turn, lerp(self.pad, other.pad, share))

    def turn_to(self, other):
        """How many degrees are turned from here to another pose: as they are set, or as the matrices tell."""
        as_set = self.turn.turn_to(other.turn) if type(self.turn) is type(other.turn) else 0
        return max(float(as_set), least_turn(self.turn.matrix(), other.turn.matrix()))


@dataclass(frozen=True)
class Boom:
    name: str
    rigid: bool
    mast: tuple
    boxes: tuple
    poses: tuple
    run_ticks: Optional[int]

    def origin(self):
        """The middle of the places where it stands: the mast, or the middle of a carriage's way. A cover's slack grows with the distance from it."""
        return tuple((min(axis) + max(axis)) / 2 for axis in zip(*[pose.at for pose in self.poses]))

    def duration(self):
        return max(pose.time for pose in self.poses) - min(pose.time for pose in self.poses)


@dataclass(frozen=True)
class Row:
    """A named box; without heights it stands for all of them."""
    name: str
    area: tuple
    heights: Optional[tuple]


@dataclass(frozen=True)
class Net:
    """All that is at its height or above, over a rectangle, along a line, or, without either, everywhere."""
    name: str
    height: Fraction
    region: Optional[tuple]
    line: Optional[tuple]


@dataclass(frozen=True)
class Plan:
    name: str
    booms: tuple
    rows: tuple
    nets: tuple
    depth: int
    tick_seconds: Fraction
    window_seconds: Optional[Fraction]

    @cached_property
    def span(self):
        """Its first time and its last."""
        times = [pose.time for boom in self.booms for pose in boom.poses]
        return min(times), max(times)

    def start(self):
        return self.span[0]

    def end(self):
        return self.span[1]
