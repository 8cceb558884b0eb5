"""The outline of where a boom and its spray may be: each of its parts in each of some short windows stands in a box of the library, and all these boxes together hold it at every time."""
import math

import binary32
from jellyplain import Refused
from planning.ending import numbered
from planning.library import six

WINDOWS, LEAST = 48, 6          # of the whole swing, and the least of each move
DEPTH = 4                       # of each, or the plan's where this one is refused
STEP = 0.5                      # pixels: ends are rounded outward to these


def window_boxes(answer):
    """The boxes of all parts in all windows, in the plan's metres, for drawing."""
    times, origin = [pose.time - answer.own for pose in answer.boom.poses], [float(v) for v in answer.origin]
    count = max(LEAST, WINDOWS // (len(times) - 1))
    inner = {binary32.nearest(a + (b - a) * k / count) for a, b in zip(times, times[1:]) for k in range(count)} - {0.0}
    ticks = [-math.inf, *sorted(inner), math.inf]
    for depth in (min(DEPTH, answer.depth), answer.depth):
        try:
            found = [common(six(answer.spray.window_cover(part, a, b, depth)), cover)
                     for parts, cover in zip(answer.parts, answer.spray_covers) for part in parts for a, b in zip(ticks, ticks[1:])]
            return [[origin[i % 3] + v for i, v in enumerate(box)] for box in found]
        except Refused as refusal:
            number = refusal.number
    raise numbered(number, "boom '%s': " % answer.boom.name)


def common(box, cover):
    """What two boxes that both hold a part have in common."""
    return [*map(max, box[:3], cover[:3]), *map(min, box[3:], cover[3:])]


def merged(spans):
    """Spans that overlap or touch as one, rising."""
    found = []
    for low, high in sorted(spans):
        if found and low <= found[-1][1]:
            found[-1] = found[-1][0], max(high, found[-1][1])
        else:
            found.append((low, high))
    return found


def differing(one, other):
    """Where the one or the other of two lists of spans is, and not both."""
    ends = sorted(end for span in one + other for end in span)
    kept = []
    for end in ends:
        if kept and kept[-1] == end:
            kept.pop()
        else:
            kept.append(end)
    return list(zip(kept[::2], kept[1::2]))


def union_edges(boxes):
    """The edges of the union of rectangles, left top right bottom: upright ones as x, y, y and level ones as y, x, x."""
    across = sorted({x for box in boxes for x in (box[0], box[2])})
    slabs = [merged([(box[1], box[3]) for box in boxes if box[0] <= a and b <= box[2]]) for a, b in zip(across, across[1:])]
    upright = [(x, *span) for x, before, behind in zip(across, [[], *slabs], [*slabs, []]) for span in differing(before, behind)]
    level, begun = [], {}
    for k, x in enumerate(across):
        ends = {y for span in slabs[k] for y in span} if k < len(slabs) else set()
        level += [(y, begun.pop(y), x) for y in sorted(set(begun) - ends)]
        begun.update((y, x) for y in ends if y not in begun)
    return upright, level


def snapped(ends):
    """A rectangle of the picture, outward to half a pixel."""
    left, top, right, bottom = ends
    return math.floor(left / STEP) * STEP, math.floor(top / STEP) * STEP, math.ceil(right / STEP) * STEP, math.ceil(bottom / STEP) * STEP


def path(view, boxes):
    """The outline in a view, as the d of an SVG path."""
    upright, level = union_edges({snapped(view.ends(box)) for box in boxes})
    return "".join(["M%g %gV%g" % edge for edge in upright] + ["M%g %gH%g" % (x, y, end) for y, x, end in level])
