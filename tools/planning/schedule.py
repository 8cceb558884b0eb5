"""The watering schedule: which row each boom may reach, from when to when, by the one answer that the map is made of; on the clock of the poses or on the day's."""
import bisect
from fractions import Fraction
from math import isinf
from typing import NamedTuple

from planning.output import stretches
from planning.reach import windows_in


class Clock(NamedTuple):
    """When a boom's swing begins, and from when to when the boom is there; in seconds."""
    zero: Fraction
    start: Fraction
    end: Fraction

    def time(self, tick, last):
        """A tick of the boom's own clock on this one; the window before its swing begins with this clock, and the one behind ends with it."""
        return (self.end if last else self.start) if isinf(tick) else self.zero + Fraction(tick)


class Watering(NamedTuple):
    """A row and a boom, by their places, and from when to when the boom may reach the row."""
    row: int
    boom: int
    start: Fraction
    end: Fraction


def clock_of(answers, i, of_day):
    """On the poses' clock a boom stands at its first pose before its swing and at its last behind it, as long as the plan goes; on the day's it is there as long as it runs, and its swing begins with its run."""
    if of_day:
        start, end = [tick * answers.plan.tick_seconds for tick in answers.day[i]]
        return Clock(start, start, end)
    return Clock(answers.booms[i].own, answers.plan.start(), answers.plan.end())


def ticks_on(answers, i, of_day):
    """The ticks of a boom's windows on a clock, exactly."""
    clock, ticks = clock_of(answers, i, of_day), answers.booms[i].ticks
    return [clock.time(tick, k > 0) for k, tick in enumerate(ticks)]


def windows_at(ticks, time):
    """The windows in which a time lies: two where it is a tick."""
    before, up_to = bisect.bisect_left(ticks, time), bisect.bisect_right(ticks, time)
    return [k for k in range(before - 1, up_to) if 0 <= k < len(ticks) - 1] or [0 if time < ticks[0] else len(ticks) - 2]


def rows_at(answers, time):
    """The places of the rows that are named in the windows of a time on the poses' clock."""
    found = set()
    for answer in answers.booms:
        windows = windows_at(answer.ticks, time - answer.own)
        found.update(place for place, mask in answer.masks.items() if any(mask >> w & 1 for w in windows))
    return found


def schedule(answers, of_day):
    """Row by row, in the order of their beginnings; neighbouring windows are one."""
    found = []
    for i, answer in enumerate(answers.progress.counted("rows of booms", answers.booms)):
        ticks = ticks_on(answers, i, of_day)
        found += [Watering(place, i, ticks[first], ticks[last + 1]) for place, mask in answer.masks.items() for first, last in stretches(windows_in(mask))]
    return sorted(found, key=lambda one: (one.row, one.start, one.boom))
