#!/usr/bin/env python3
"""How many rows tools/plan names beside those that are truly reached.

  rows.py            prints two tables: five swings of one boom, and a plan of 256 blocks, with the spray as a box and as a ball

What is truly reached is computed here by itself, in doubles: at times so near that no corner moves by more than STEP, each box of a boom is a turned rectangle, and a block is reached where the two
have a point in common, or are no further apart than the spray reaches. So a block that is only grazed between two times may be missed, and none is named too many. Heights are left aside, and so are tilts.
What is named are the tool's own answers: by the cover of each whole box, as before; by the boom in 16 parts, in one window of all time; and the same in 20 windows, as the tool has them.
The library is found as tools/plan finds it.
"""
import json
import math
import os
import sys

sys.path.insert(0, os.path.join(os.path.dirname(os.path.dirname(os.path.abspath(__file__))), "tools"))
sys.dont_write_bytecode = True

from planning import answers, files, library, reach, reading

DEPTH = 8
STEP = 0.005                # metres
SWINGS = [(-35, 35), (0, 90), (20, 80), (-60, 60), (30, 45)]
BOX = [0, -0.2, 1.75, 24, 0.2, 2.25]


# ---- what is truly reached

def corners(x0, y0, x1, y1):
    return [(x0, y0), (x1, y0), (x1, y1), (x0, y1)]


def states(boom):
    """Where the boom stands, how it is turned and how far it sprays, from its first time to its last: place, angle and pad go evenly in time between two poses."""
    reach_of = max(math.hypot(max(abs(float(box[0])), abs(float(box[3]))), max(abs(float(box[1])), abs(float(box[4])))) for box in boom.boxes)
    for a, b in zip(boom.poses, boom.poses[1:]):
        start, end = [(float(pose.at[0]), float(pose.at[1]), math.radians(pose.turn.heading), float(pose.pad)) for pose in (a, b)]
        assert a.turn.tilt == b.turn.tilt == 0
        way = math.dist(start[:2], end[:2]) + abs(end[2] - start[2]) * reach_of + abs(end[3] - start[3])
        count = max(1, math.ceil(way / STEP))
        yield from (tuple(p + (q - p) * k / count for p, q in zip(start, end)) for k in range(count + 1))


def apart(p, q, r):
    """How far a point p is from the line from q to r."""
    way = (r[0] - q[0], r[1] - q[1])
    square = way[0] ** 2 + way[1] ** 2
    share = min(1, max(0, ((p[0] - q[0]) * way[0] + (p[1] - q[1]) * way[1]) / square)) if square else 0
    return math.hypot(p[0] - q[0] - share * way[0], p[1] - q[1] - share * way[1])


def overlap(one, other):
    """Whether two rectangles, each by its corners in order, have a point in common: no side of either parts them."""
    for a, b in ((one, other), (other, one)):
        for k in (0, 1):
            normal = (a[k + 1][1] - a[k][1], a[k][0] - a[k + 1][0])
            spans = [[p[0] * normal[0] + p[1] * normal[1] for p in corners_of] for corners_of in (a, b)]
            if max(spans[0]) < min(spans[1]) or max(spans[1]) < min(spans[0]):
                return False
    return True


def within(one, other, distance):
    """Whether two rectangles are no further apart than a distance."""
    sides = [(c, c[k - 1], c[k]) for c in (one, other) for k in range(4)]
    return overlap(one, other) or min(apart(p, q, r) for c, q, r in sides for p in (other if c is one else one)) <= distance


def reached(boom, areas, ball):
    """The places of the areas that a boom or its spray reaches."""
    found, left = set(), {k: [float(v) for v in area] for k, area in enumerate(areas)}
    boxes = [corners(*[float(box[i]) for i in (0, 1, 3, 4)]) for box in boom.boxes]
    for x, y, angle, pad in states(boom):
        cos, sin = math.cos(angle), math.sin(angle)
        for box in boxes:
            moved = [(x + cos * u - sin * v, y + sin * u + cos * v) for u, v in box]
            low, high = [[pick(p[i] for p in moved) for i in (0, 1)] for pick in (min, max)]
            for k, (x0, y0, x1, y1) in list(left.items()):
                if x0 - pad <= high[0] and low[0] <= x1 + pad and y0 - pad <= high[1] and low[1] <= y1 + pad:
                    if within(moved, corners(x0, y0, x1, y1), pad) if ball else overlap(moved, corners(x0 - pad, y0 - pad, x1 + pad, y1 + pad)):
                        found.add(k)
                        del left[k]
    return found


# ---- what is named

def counts(plan):
    """Over all booms of a plan: reached with the spray as a box, as a ball, and named by the cover, in one window, in 20."""
    given = reading.plan(files.json_values(json.dumps({**plan, "depth": DEPTH})), "rows")
    found, areas, sums = answers.Answers(given), [row.area for row in given.rows], [0] * 5
    for answer in found.booms:
        by_cover = answer.reached(answer.spray_covers)
        at_once = reach.reach(answer.spray, answer.all_parts, DEPTH, reach.ALL_TIME, [answer.local_rows.row(place) for place in by_cover])
        true = [reached(answer.boom, areas, ball) for ball in (False, True)]
        assert true[1] <= true[0] <= set(answer.rows), "a row that is reached is not named"
        for k, count in enumerate((len(true[0]), len(true[1]), len(by_cover), sum(map(bool, at_once)), len(answer.rows))):
            sums[k] += count
    return sums


def swing(first, last):
    """A boom of 24 m over blocks of 1.5 m in the middle of squares of 2 m."""
    blocks = [{"name": "%d %d" % (x, y), "box": [x + 0.25, y + 0.25, x + 1.75, y + 1.75]} for x in range(-4, 28, 2) for y in range(-28, 28, 2)]
    poses = [{"time": 0, "heading": first}, {"time": 60, "heading": last}]
    return {"booms": [{"name": "boom", "kind": "rigid", "mast": [0, 0, 0], "box": BOX, "poses": poses}], "rows": blocks}


def blocks():
    """The booms of the example over 256 blocks."""
    with open(os.path.join(os.path.dirname(os.path.dirname(os.path.abspath(__file__))), "examples", "plan", "orchard.json"), encoding="utf-8") as file:
        plan = json.load(file)
    areas = [(1210 + 5 * i, 404 + 3.25 * j) for i in range(16) for j in range(16)]
    return {"booms": plan["booms"], "rows": [{"name": "%g %g" % area, "box": [*area, area[0] + 4.5, area[1] + 2.75]} for area in areas]}


def row(words, true, named):
    print("| %s | %d | %s |" % (words, true, " | ".join("%d (%.2f)" % (count, count / true) for count in named)))


def main():
    library.load(os.environ.get("JELLYPLAIN_LIBRARY") or library.DEFAULT)
    print("| swing | blocks reached | named by the cover | in 16 parts, one window | in 16 parts, 20 windows |\n|---|---|---|---|---|")
    sums = [0] * 5
    for first, last in SWINGS:
        found = counts(swing(first, last))
        row("%d° to %d°" % (first, last), found[0], found[2:])
        sums = [a + b for a, b in zip(sums, found)]
    row("all five", sums[0], sums[2:])
    print("\n| 256 blocks, four booms; the spray is | blocks reached | named by the covers | in 16 parts, one window | in 16 parts, 20 windows |\n|---|---|---|---|---|")
    found = counts(blocks())
    row("a box", found[0], found[2:])
    row("a ball", found[1], found[2:])


if __name__ == "__main__":
    main()
