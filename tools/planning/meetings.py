"""In which windows two booms may meet: asked at low depths first, and at the plan's own only where those leave it open.

A greater depth lists no other window, and none is refused where a lower one is accepted (`WindowsFiner`, crates/window_meetings/specs/Theorem.antt).
So what a low depth leaves off the list is answered, and the answer is that of the plan's depth."""
import itertools

from jellyplain import Refused
from planning.library import TICKS
from planning.output import stretches

LOWER, MOST = (1, 4), 12        # depths to ask before, and the greatest that the library accepts


def lower_depths(depth):
    return [lower for lower in LOWER if lower < depth <= MOST]


def listed(pair, boxes, depth, ticks, windows):
    """Which of some windows the library lists; it takes 64 ticks at a time, and parts share a tick."""
    for first, last in stretches(windows):
        for k in range(first, last + 1, TICKS - 1):
            part = ticks[k:min(k + TICKS, last + 2)]
            yield from (k + place for place in pair[0].windows(pair[1], *boxes, part, depth))


def meeting_windows(pair, boxes, depth, ticks):
    """The windows in which any box of one chain and any of another may meet."""
    boxes, accepted = list(itertools.product(*boxes)), False
    left = {k: range(len(ticks) - 1) for k in range(len(boxes))}
    for lower in lower_depths(depth):
        try:
            left = {k: list(listed(pair, two, lower, ticks, left[k])) for k, two in enumerate(boxes)}
            accepted = True
        except Refused:
            pass                # the plan's depth may still be accepted, or has a refusal of its own
    found = set()
    for k, two in enumerate(boxes):
        # What is listed already need not be asked of other boxes, where it is known that none of them is refused.
        found.update(listed(pair, two, depth, ticks, [w for w in left[k] if not (accepted and w in found)]))
    return sorted(found)
