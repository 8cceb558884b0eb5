"""A net beside a boom, without its spray: how high the boom's pieces come that may be over or under the net, as the library's `reach` tells of the net as a row.

A row that goes from a height up is named exactly where a piece over its area comes to that height. So the greatest height at which it is named is how high those pieces come: a float, found by asking for many heights at once."""
from fractions import Fraction

import binary32
from planning import reach
from planning.chains import outward, shifted
from planning.library import ROWS, bounds
from planning.rows import LARGEST, hull

GREATEST = binary32.order(LARGEST)
LINE_PARTS = 32                 # of a line that goes aslant, so that boxes round them are small


def touching(a, b):
    """Whether two rectangles, x0 y0 x1 y1, have a point in common."""
    return all(a[i] <= b[i + 2] and b[i] <= a[i + 2] for i in range(2))


def line_in(line, area):
    """The share of a line's way, from one place to another, that lies in a rectangle: its ends, or None."""
    low, high = Fraction(0), Fraction(1)
    for i in range(2):
        start, way = line[i], line[i + 2] - line[i]
        if way == 0:
            if not area[i] <= start <= area[i + 2]:
                return None
            continue
        shares = sorted([(area[i] - start) / way, (area[i + 2] - start) / way])
        low, high = max(low, shares[0]), min(high, shares[1])
    return (low, high) if low <= high else None


def line_areas(line, area):
    """The rectangles round parts of a line, as far as it lies in a rectangle."""
    found = line_in(line, area)
    if found is None:
        return []
    count = 1 if line[0] == line[2] or line[1] == line[3] else LINE_PARTS
    places = [found[0] + (found[1] - found[0]) * k / count for k in range(count + 1)]
    ends = [[line[i] + (line[i + 2] - line[i]) * place for i in range(2)] for place in places]
    return [[*map(min, zip(a, b)), *map(max, zip(a, b))] for a, b in zip(ends, ends[1:])]


def areas(net, covers):
    """The rectangles of a net that a boom may stand under, None for one without ends; none where no cover of the boom stands under it."""
    under = [(box[0], box[1], box[3], box[4]) for box in covers]
    if net.region:
        return [net.region] if any(touching(net.region, area) for area in under) else []
    if net.line:
        return line_areas(net.line, hull(under)) if any(line_in(net.line, area) for area in under) else []
    return [None]


def local_area(area, origin):
    """In a boom's frame, outward."""
    return [-LARGEST, -LARGEST, LARGEST, LARGEST] if area is None else outward(shifted(area, origin[:2], -1))


def spread(low, high, count):
    """At most so many whole numbers between two, evenly."""
    count = min(count, high - low - 1)
    return [low + (high - low) * k // (count + 1) for k in range(1, count + 1)]


def over(answer, depth, found, height):
    """Of some areas those over which the boom, in its parts, comes to each of some heights, which are given by their places among the floats."""
    rows = [bounds([*area[:2], binary32.at_order(place), *area[2:], LARGEST]) for place in height for area in found]
    masks = reach.asked(answer.bare, answer.all_parts, depth, reach.ALL_TIME, rows)
    return [[area for area, mask in zip(found, masks[k:]) if mask] for k in range(0, len(rows), len(found))]


def top(answer, net, depth):
    """How high the boom comes over or under a net, in the plan's metres, exactly; None where it doesn't stand under it."""
    left = [local_area(area, answer.origin) for area in areas(net, answer.covers_in_plan(False))]
    if not left:
        return None
    low, high = [binary32.order(pick(cover[i] for cover in answer.bare_covers)) for pick, i in ((min, 2), (max, 5))]
    named, beyond = None, GREATEST + 1
    # Most booms come as high as their covers: that is asked first, and whether they stand under the net at all.
    heights = sorted({-GREATEST, low, *spread(low, high, max(0, ROWS // len(left) - 4)), high, min(high + 1, GREATEST)})
    while heights:
        for height, found in zip(heights, over(answer, depth, left, heights)):
            if not found:
                beyond = height
                break
            named, still = height, found
        if named is None:
            return None
        left = still
        heights = spread(named, beyond, ROWS // len(left))
    return Fraction(binary32.at_order(named)) + answer.origin[2]
