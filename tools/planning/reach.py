"""Which rows a boom may reach, and when: the library's `reach` on the boom in parts, which the library's `cut` makes.

A greater depth names no other row, and none is refused where a lower one is accepted (`reach-finer`). So what a low depth leaves off is answered, and the answer is that of the plan's depth."""
from math import inf

from jellyplain import Refused, cut
from planning.library import ROWS, TICKS, bounds

PARTS = 16                      # the most of a call
LOWER, MOST = 4, 12             # a depth to ask before, and the greatest that the library accepts
ALL_TIME = [-inf, inf]


def length(box):
    return max(box[i + 3] - box[i] for i in range(3))


def shares(boxes):
    """Into how many parts each box is cut: one, and each further one for the box whose parts are longest, the first of equals."""
    counts = [1] * len(boxes)
    for _ in range(PARTS - len(boxes)):
        counts[max(range(len(boxes)), key=lambda k: length(boxes[k]) / counts[k])] += 1
    return counts


def parts_of(boxes):
    """For each box of a boom its parts, 16 in all."""
    return [cut(bounds(box), count) for box, count in zip(boxes, shares(boxes))]


def asked(chain, parts, depth, ticks, rows):
    """A mask for each row: bit w says that it is named in window w. The library takes 64 ticks and 256 rows at a time, and parts share a tick."""
    masks = [0] * len(rows)
    for k in range(0, len(ticks) - 1, TICKS - 1):
        for first in range(0, len(rows), ROWS):
            for place, mask in enumerate(chain.reach(parts, depth, ticks[k:k + TICKS], rows[first:first + ROWS])):
                masks[first + place] |= mask << k
    return masks


def reach(chain, parts, depth, ticks, rows):
    """The same, at a low depth first: only what that names is asked at the depth itself, window by window."""
    if not LOWER < depth <= MOST:
        return asked(chain, parts, depth, ticks, rows)
    try:
        first = asked(chain, parts, LOWER, ticks, rows)
    except Refused:             # the depth itself may still be accepted, or has a refusal of its own
        return asked(chain, parts, depth, ticks, rows)
    masks = [0] * len(rows)
    for w in range(len(ticks) - 1):
        named = [place for place, mask in enumerate(first) if mask >> w & 1]
        for place, mask in zip(named, asked(chain, parts, depth, ticks[w:w + 2], [rows[place] for place in named])):
            masks[place] |= mask << w
    return masks


def windows_in(mask):
    """The windows of a mask, rising."""
    return [w for w in range(mask.bit_length()) if mask >> w & 1]
