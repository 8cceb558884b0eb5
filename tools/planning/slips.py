"""Numbers that are likely slips: each is a warning, never a refusal, since a plan may mean them."""
import math
from dataclasses import replace

import binary32
from planning.ending import Ending
from planning.numbers import shown
from planning.rows import LocalRows, Rows
from planning.scene import places

FAR = 100               # times as far as the others
FAST = 5                # metres a second
SHORT = 1               # seconds
PARTS = 8               # of the way between two poses, each taken as straight
MOST_NAMES = 3


def plain(number):
    """A number for people, not rounded to any side."""
    return ("%.3f" % number).rstrip("0").rstrip(".") if abs(number) < 1e9 else "%.3g" % number


# ---- booms

def reach(boom):
    """How far the boom goes from its own origin."""
    return max(math.hypot(*[max(abs(float(box[i])), abs(float(box[i + 3]))) for i in range(3)]) for box in boom.boxes)


def without(values, k):
    """The least and the greatest of all values but one, from those in order."""
    order = sorted(values)
    return order[values[k] == order[0]], order[-1 - (values[k] == order[-1])]


def far_booms(booms):
    """Booms that stand 100 times as far from the others as these stand apart, or reach; of two booms the second."""
    origins, reaches = [[float(v) for v in boom.origin()] for boom in booms], [reach(boom) for boom in booms]
    axes = list(zip(*origins))
    for k in range(1 if len(booms) == 2 else 0, len(booms) if len(booms) > 1 else 0):
        spans = [without(axis, k) for axis in axes]
        size = max(math.hypot(*[high - low for low, high in spans]), without(reaches, k)[1])
        distance = math.hypot(*[place - (low + high) / 2 for place, (low, high) in zip(origins[k], spans)])
        if distance > FAR * size:
            yield "boom '%s': it stands %s m from the others, more than %d times the %s m that these stand apart or reach; is a decimal point missing?" % (
                booms[k].name, plain(distance), FAR, plain(size))


def way_times(boom):
    """Each pose's time and some between, with the place of the pose before."""
    for k, (a, b) in enumerate(zip(boom.poses, boom.poses[1:])):
        yield from ((k, a.time + (b.time - a.time) * part / PARTS) for part in range(PARTS))
    yield len(boom.poses) - 2, boom.poses[-1].time


def fastest(answer):
    """The greatest speed of a corner of the boom, in metres a second, and the pose behind which it has it."""
    ways = list(way_times(answer.boom))
    moved, times = places(answer, [time for _, time in ways]), [binary32.nearest(time - answer.own) for _, time in ways]
    found = (0, 0)
    for (k, _), here, there, a, b in zip(ways, moved, moved[1:], times, times[1:]):
        if a < b:
            way = max(math.dist(p, q) for one, other in zip(here, there) for p, q in zip(one, other))
            found = max(found, (way / (b - a), k))
    return found


def fast_boom(answer):
    try:
        speed, k = fastest(answer)
    except Ending:              # its corners can't be asked, and what is drawn says so
        return
    if speed > FAST:
        yield "boom '%s': poses %d and %d: its far end moves at %s m/s, faster than %d m/s; is a time or a turn wrong?" % (answer.boom.name, k + 1, k + 2, plain(speed), FAST)


def short_swing(boom):
    if boom.duration() < SHORT:
        yield "boom '%s': its swing takes %s s, from its first pose to its last; are its times in seconds?" % (boom.name, shown(boom.duration()))


def of_booms(answers):
    yield from far_booms(answers.plan.booms)
    for answer in answers.booms:
        yield from fast_boom(answer)
        yield from short_swing(answer.boom)


# ---- rows

def of_rows(answers):
    """Rows with heights that a boom passes over and doesn't reach, since they end below it and its spray."""
    rows = answers.plan.rows
    numbers = [k for k, row in enumerate(rows) if row.heights]
    from_above = Rows([replace(rows[k], heights=None) for k in numbers])
    for answer in answers.booms if numbers else []:
        local, reached, missed = LocalRows(from_above, answer.origin), set(answer.rows), {}
        for cover in answer.spray_covers:
            low = answer.in_plan(cover)[2]
            missed.update((k, low) for k in local.reached(cover) if numbers[k] not in reached and rows[numbers[k]].heights[1] < low)
        over = answer.named(answer.spray, answer.all_parts, sorted(missed), local)
        if over:
            yield missed_text(answer.boom, [rows[numbers[k]] for k in over], missed[min(over)])


def missed_text(boom, rows, low):
    names = ", ".join("'%s'" % row.name for row in rows[:MOST_NAMES]) + (" and %d more" % (len(rows) - MOST_NAMES)) * (len(rows) > MOST_NAMES)
    return "boom '%s': it passes over %s %s, not reached by heights: '%s' ends at %s m, and above it the boom and its spray begin at %s m; water falls and boxes don't: leave the heights out" % (
        boom.name, "row" if len(rows) == 1 else "rows", names, rows[0].name, shown(rows[0].heights[1]), plain(float(low)))
