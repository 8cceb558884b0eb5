"""Booms that wait at their first pose, or are done at their last, beside those that run: which may meet, and when."""
from math import inf
from typing import NamedTuple

import binary32
from jellyplain import Refused
from planning.ending import numbered
from planning.library import bounds, reached_rows, six
from planning.numbers import shown
from planning.rows import hull

MOST_TOLD = 3


class Standing(NamedTuple):
    """A boom, by its place, that stands from one tick to another, and the boxes that hold it there, in the frame of all booms."""
    boom: int
    done: bool
    start: int
    end: int
    boxes: list

    def hull(self):
        return hull(self.boxes)


class Meeting(NamedTuple):
    """A boom that stands in the boxes of one that runs, and the ticks in which both do."""
    boom: int
    done: bool
    other: int
    start: int
    end: int


def standing_covers(answer, done, with_pads, depth):
    """The covers of a boom's boxes in the window before its first pose, or behind its last."""
    chain = answer.spray if with_pads else answer.bare
    time = binary32.nearest(answer.boom.poses[-1 if done else 0].time - answer.own)
    window = (time, inf) if done else (-inf, time)
    try:
        return [answer.in_plan(six(chain.window_cover(bounds(box), *window, depth))) for box in answer.boxes]
    except Refused as refusal:
        raise numbered(refusal.number, "boom '%s', %s its swing: " % (answer.boom.name, "after" if done else "before"))


def all_standing(answers):
    """Each boom before its run and after it, as long as any boom runs."""
    last = max(run.end for run in answers.day)
    for i, (answer, run) in enumerate(zip(answers.booms, answers.day)):
        for done, start, end in ((False, 0, run.start), (True, run.end, last)):
            if start < end:
                yield Standing(i, done, start, end, [answers.in_frame(cover) for cover in standing_covers(answer, done, answers.with_pads, answers.plan.depth)])


def meetings(answers):
    """Each boom that stands in a box of one that runs, touching included, as the library says: by the boxes round all first, then box by box."""
    standing, found = list(all_standing(answers)), []
    hulls = [bounds(one.hull()) for one in standing]
    for j, (answer, run) in enumerate(answers.progress.counted("parked booms", list(zip(answers.booms, answers.day)))):
        near = [standing[k] for k in reached_rows(bounds(answers.whole_boxes[j]), hulls)]
        near = [one for one in near if one.boom != j and max(one.start, run.start) < min(one.end, run.end)]
        covers = [answers.in_frame(cover) for cover in answer.covers_in_plan(answers.with_pads)] if near else []
        for one in near:
            if any(reached_rows(bounds(cover), list(map(bounds, one.boxes))) for cover in covers):
                found.append(Meeting(one.boom, one.done, j, max(one.start, run.start), min(one.end, run.end)))
    return sorted(found, key=lambda meeting: (meeting.start, meeting.boom))


def meeting_text(answers, meeting):
    """Which two, and when, in ticks and on the day's clock."""
    name, other = [answers.booms[i].boom.name for i in (meeting.boom, meeting.other)]
    seconds = [shown(tick * answers.plan.tick_seconds) for tick in (meeting.start, meeting.end)]
    return "boom '%s' %s pose in a box of boom '%s', which runs: ticks %d to %d, %s s to %s s" % (
        name, "is done and stands at its last" if meeting.done else "waits at its first", other, meeting.start, meeting.end, *seconds)


def refusal_text(answers, found):
    """The first of them, and how many more there are."""
    told = [meeting_text(answers, meeting) for meeting in found[:MOST_TOLD]] + ["and %d more like these" % (len(found) - MOST_TOLD)] * (len(found) > MOST_TOLD)
    return "%s; change that pose, or park the boom elsewhere and ask with --parked-elsewhere" % "; ".join(told)
