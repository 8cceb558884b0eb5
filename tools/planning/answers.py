"""What a plan is answered: covers, nets, rows window by window, when booms may meet and the day, each asked of the library once and kept."""
import itertools
from fractions import Fraction
from functools import cached_property
from math import inf
from typing import NamedTuple, Optional

import binary32
import jellyplain
from jellyplain import Boom, Refused
from planning import chains, meetings, nets, reach
from planning.chains import shifted
from planning.ending import numbered, refused
from planning.groups import groups
from planning.library import BOOMS, bounds, reached_rows, six
from planning.numbers import shown
from planning.progress import SILENT
from planning.reading import at
from planning.rows import LocalRows, Rows

MOST_WINDOWS = 1000
DEFAULT_WINDOWS = 20


def ticks_of(start, end, length):
    """From a start to an end in windows of one length, the last of them shorter where it must be; exact, in seconds."""
    count = max(1, -(-(end - start) // length))
    if count > MOST_WINDOWS:
        raise refused("windows of %s s: more than %d from %s s to %s s; ask for longer ones" % (shown(length), MOST_WINDOWS, shown(start), shown(end)))
    return [start + k * length for k in range(count)] + [end if end > start else start + length]


class BoomAnswer:
    """A boom in a frame of its own and on a clock of its own: its chains with pads and without, their covers as floats of that frame, and the rows that it may reach, window by window."""

    def __init__(self, boom, depth, rows, window_seconds):
        self.boom, self.depth, self.own, self.origin, self.window_seconds = boom, depth, boom.poses[0].time, boom.origin(), window_seconds
        self.boxes = [chains.outward(box) for box in boom.boxes]
        self.local_rows = LocalRows(rows, self.origin)
        self.sprays = any(pose.pad for pose in boom.poses)
        self.bare = chains.build(boom, self.origin, self.own, False)
        self.spray = chains.build(boom, self.origin, self.own, True) if self.sprays else self.bare
        try:
            self.bare_covers, self.bare_union = self.covers(self.bare, depth)
            self.spray_covers, self.spray_union = self.covers(self.spray, depth) if self.sprays else (self.bare_covers, self.bare_union)
        except Refused as refusal:
            raise numbered(refusal.number)

    def covers(self, chain, depth):
        """The cover of each box, and their union."""
        found = chain.covers(map(bounds, self.boxes), depth)
        return list(map(six, found.each)), six(found.union)

    @cached_property
    def parts(self):
        """For each box its parts."""
        return reach.parts_of(self.boxes)

    @property
    def all_parts(self):
        return [part for parts in self.parts for part in parts]

    @cached_property
    def ticks(self):
        """The windows of its swing, from its first pose to its last, as the library has them, with one before and one behind in which it stands: together they are all time. Ticks that are one float are one."""
        with at("boom '%s'" % self.boom.name):
            swing = ticks_of(self.own, self.boom.poses[-1].time, self.window_seconds)
        return [-inf, *sorted({binary32.nearest(tick - self.own) for tick in swing}), inf]

    @cached_property
    def masks(self):
        """The one answer from which the map, the table of rows, the day and the schedule name rows: by its place, each row that the boom and its spray may reach, with a mask of windows."""
        return self.named(self.spray, self.all_parts, self.reached(self.spray_covers))

    @property
    def rows(self):
        return list(self.masks)

    def rows_of_box(self, k, with_spray):
        """Of the rows that it may reach, by their places, those that one of its boxes may."""
        chain = self.spray if with_spray else self.bare
        if len(self.boxes) == 1 and chain is self.spray:
            return self.rows
        return list(self.named(chain, self.parts[k], self.rows))

    def named(self, chain, parts, places, rows=None):
        """Of some rows, by their places, those that are named in any window, with their masks."""
        rows = rows or self.local_rows
        try:
            masks = reach.reach(chain, parts, self.depth, self.ticks, [rows.row(place) for place in places])
        except Refused as refusal:
            raise numbered(refusal.number, "boom '%s': " % self.boom.name)
        return {place: mask for place, mask in zip(places, masks) if mask}

    def reached(self, covers):
        """The places of the plan's rows that any of the covers meets, as the library says: no other can be named."""
        return sorted({place for cover in covers for place in self.local_rows.reached(cover)})

    def in_plan(self, cover):
        """A cover of the boom's frame in the plan's, exactly."""
        return shifted(cover, self.origin)

    def covers_in_plan(self, with_spray):
        return [self.in_plan(cover) for cover in (self.spray_covers if with_spray else self.bare_covers)]

    def union_in_plan(self, with_spray):
        return self.in_plan(self.spray_union if with_spray else self.bare_union)


class NetAnswer(NamedTuple):
    """How high the boom comes where it may stand under a net, and how far below the net that is; None where it doesn't stand under it."""
    top: Optional[Fraction]
    clearance: Optional[Fraction]

    def below(self):
        return self.clearance is None or self.clearance > 0


class RunAnswer(NamedTuple):
    """From which tick to which a boom runs."""
    start: int
    end: int


class Answers:
    """All answers to a plan; what isn't asked for isn't worked out."""

    def __init__(self, plan, with_pads=True, warn=lambda text: None, progress=SILENT):
        self.plan, self.with_pads, self.warn, self.progress = plan, with_pads, warn, progress
        self.window_seconds = plan.window_seconds or (plan.end() - plan.start()) / DEFAULT_WINDOWS or Fraction(1)
        self.booms, rows = [], Rows(plan.rows)
        for boom in progress.counted("covers of booms", plan.booms):
            with at("boom '%s'" % boom.name):
                chains.look_at_times(boom, plan.start(), warn)
                self.booms.append(BoomAnswer(boom, plan.depth, rows, self.window_seconds))

    # ---- which booms can meet at all

    @cached_property
    def frame(self):
        """One frame for all booms."""
        return chains.middle(self.plan.booms)

    def in_frame(self, box):
        """A box of the plan in the frame of all, outward."""
        return chains.outward(shifted(box, self.frame, -1))

    @cached_property
    def whole_boxes(self):
        """Of each boom the box round all its covers, in the frame of all."""
        return [self.in_frame(answer.union_in_plan(self.with_pads)) for answer in self.booms]

    @cached_property
    def meeting(self):
        """The pairs of booms, by their places, whose boxes meet, touching included, as the library says."""
        boxes = list(map(bounds, self.whole_boxes))
        return {(i, i + 1 + k) for i, box in enumerate(boxes[:-1]) for k in reached_rows(box, boxes[i + 1:])}

    @cached_property
    def groups(self):
        """The booms, by their places, in groups whose boxes meet, directly or through others."""
        return groups(len(self.booms), self.meeting)

    # ---- rows

    def rows_of(self, i):
        """The names of the rows that a boom may reach."""
        return [self.plan.rows[place].name for place in self.booms[i].rows]

    @cached_property
    def booms_of_rows(self):
        """For each row the names of the booms that may reach it."""
        found = [[] for _ in self.plan.rows]
        for answer in self.progress.counted("rows of booms", self.booms):
            for place in answer.rows:
                found[place].append(answer.boom.name)
        return found

    def reached_by(self, place):
        return self.booms_of_rows[place]

    # ---- nets

    def net(self, net, answer):
        """A net beside the boom itself, without its spray; the two heights are compared as exact fractions."""
        try:
            top = nets.top(answer, net, self.plan.depth)
        except Refused as refusal:
            raise numbered(refusal.number, "boom '%s': " % answer.boom.name)
        return NetAnswer(None, None) if top is None else NetAnswer(top, net.height - top)

    @cached_property
    def nets(self):
        """For each net and each boom, by their places."""
        return {(n, b): self.net(net, answer) for n, net in enumerate(self.plan.nets) for b, answer in enumerate(self.booms)}

    # ---- windows

    @cached_property
    def ticks(self):
        """The plan's time from its start to its end in windows."""
        return ticks_of(self.plan.start(), self.plan.end(), self.window_seconds)

    @cached_property
    def float_ticks(self):
        """The ticks as the library has them, seconds from the plan's start; refused where two are one float."""
        start, found = self.plan.start(), chains.collapsed(self.ticks, self.plan.start())
        if found:
            raise numbered(21, "windows: %s; ask for longer ones; " % chains.collapse_text(found, start))
        return [binary32.nearest(tick - start) for tick in self.ticks]

    def tick_text(self, k, above):
        """A tick in the plan's seconds, the float's own value, rounded to the millisecond, up or down."""
        return binary32.decimal_text(binary32.thousandths(Fraction(self.float_ticks[k]) + self.plan.start(), above))

    @cached_property
    def windows(self):
        """For each two booms, by their places, the windows in which they may meet: none where their whole boxes don't meet."""
        found = {pair: [] for pair in itertools.combinations(range(len(self.booms)), 2)}
        for i, j in self.progress.counted("windows of pairs", sorted(self.meeting)):
            found[i, j] = self.windows_of(self.booms[i], self.booms[j])
        return found

    def windows_of(self, one, other):
        """Both stand in one frame, between their origins, and on the plan's clock."""
        frame = chains.middle([one.boom, other.boom])
        with at("booms '%s' and '%s'" % (one.boom.name, other.boom.name)):
            for answer in (one, other):
                self.look_at_plan_clock(answer.boom)
            built = [chains.build(answer.boom, frame, self.plan.start(), self.with_pads) for answer in (one, other)]
            try:
                return meetings.meeting_windows(built, [list(map(bounds, answer.boxes)) for answer in (one, other)], self.plan.depth, self.float_ticks)
            except Refused as refusal:
                raise numbered(refusal.number)

    def look_at_plan_clock(self, boom):
        found = chains.collapsed([pose.time for pose in boom.poses], self.plan.start())
        if found:
            raise numbered(12, "boom '%s': %s: %s; set its swing nearer to the plan's start; " % (boom.name, chains.places(found[0]), chains.collapse_text(found, self.plan.start())))

    # ---- the day

    def run_ticks(self, boom):
        """As given, where the swing ends in so many ticks, or the boom's seconds in ticks, rounded up."""
        needed = int(-(-boom.duration() // self.plan.tick_seconds))
        if boom.run_ticks is None:
            return max(1, needed)
        if boom.run_ticks < needed:
            raise refused("boom '%s': its run is shorter than its swing: run_ticks is %d, the swing takes %s s and a tick %s s, so it needs %d ticks"
                          % (boom.name, boom.run_ticks, shown(boom.duration()), shown(self.plan.tick_seconds), needed))
        return boom.run_ticks

    @cached_property
    def day(self):
        """From which tick to which each boom runs: each group has a day of its own, since no box of one meets a box of another."""
        lengths = [min(self.run_ticks(answer.boom), 2 ** 32 - 1) for answer in self.booms]
        starts = {}
        for group in self.groups:
            starts.update(zip(group, self.group_day(group, [lengths[i] for i in group])))
        return [RunAnswer(starts[i], starts[i] + length) for i, length in enumerate(lengths)]

    def group_day(self, group, lengths):
        """The tick in which each boom of a group starts, as the library says."""
        try:
            return jellyplain.starting_ticks(Boom(bounds(self.whole_boxes[i]), length) for i, length in zip(group, lengths))
        except Refused as refusal:
            raise numbered(refusal.number, "%s, run lengths of %d to %d ticks of %s s: " % (self.group_text(group), min(lengths), max(lengths), shown(self.plan.tick_seconds)))

    def group_text(self, group):
        names = ["'%s'" % self.booms[i].boom.name for i in group[:BOOMS + 1]] + [".."] * (len(group) > BOOMS + 1)
        return "a group of %d booms whose boxes meet, directly or through others, %s" % (len(group), ", ".join(names)) if len(group) > 1 else "boom " + names[0]
