"""Where booms stand at some times, by the library, and two views of them: from above and from the side."""
import math
from fractions import Fraction
from functools import cached_property

import binary32
import svg
from jellyplain import Refused
from planning import outline
from planning.ending import numbered

WIDTH = 860                             # pixels of a view
LEFT, TOP = 64, 66                      # margins
SIDE = 150                              # pixels of the side view's height
GAP = 84                                # pixels between the two views
ROOM = 0.03                             # of the width round all that is drawn
COLOURS = ["#2166ac", "#c62828", "#b8860b", "#00838f", "#8d5524", "#d81b7a", "#1b7837", "#555555"]
NET, NOW, REACHED, DRY = "#6a3d9a", "#a9d57f", "#d9ecc4", "#efefef"
FRAME = 'fill="none" stroke="#000000" stroke-width="0.8"'
LONGEST, CHARACTER = 5, 6.3             # the most characters of a label on an axis, and the pixels of one


def colour(i):
    return COLOURS[i % len(COLOURS)]


def corners(box):
    return [[box[i + 3 * (corner >> i & 1)] for i in range(3)] for corner in range(8)]


def in_threes(floats):
    return [floats[i:i + 3] for i in range(0, len(floats), 3)]


def places(answer, times):
    """For each time and each of a boom's boxes its eight corners where the point query says they are, in the plan's frame, for drawing."""
    floats = [binary32.nearest(time - answer.own) for time in times]
    origin = [float(v) for v in answer.origin]
    try:
        paths = [[in_threes(answer.bare.points(floats, corner)) for corner in corners(box)] for box in answer.boxes]
    except Refused as refusal:
        raise numbered(refusal.number, "boom '%s': a corner: " % answer.boom.name)
    return [[[[o + v for o, v in zip(origin, path[k])] for path in box] for box in paths] for k in range(len(times))]


def pose_times(boom, between):
    """The first time, so many between, and the last."""
    first, last = boom.poses[0].time, boom.poses[-1].time
    return [first + (last - first) * Fraction(k, between + 1) for k in range(between + 2)]


def box_round(moved):
    """The box round eight corners each of some boxes."""
    points = [p for box in moved for p in box]
    return [pick(p[i] for p in points) for pick in (min, max) for i in range(3)]


def axis_marks(low, high, step):
    """The marks of an axis with their labels, and where they count from: in full from 0, or, where those would be too long, from a round number below all, which is named."""
    marks = list(svg.ticks(low, high, step))
    if low <= 0 <= high or max((len(label) for _, label in marks), default=0) <= LONGEST and max(abs(low), abs(high)) < 10 ** LONGEST:
        return marks, ""
    unit = 10 ** max(0, math.ceil(math.log10(high - low)))
    origin = math.floor(low / unit) * unit
    return [(origin + value, label) for value, label in svg.ticks(low - origin, high - origin, step)], " from %s" % str(origin).replace("-", "−") if origin else ""


class View:
    """x to the right and one other axis up, in a rectangle of the picture."""

    def __init__(self, axis, ranges, scales, top):
        self.axis, self.ranges, self.scales, self.top = axis, ranges, scales, top
        self.width, self.height = [(high - low) * scale for (low, high), scale in zip(ranges, scales)]
        self.bottom, self.right = top + self.height, LEFT + self.width

    def place(self, x, value):
        return LEFT + (float(x) - self.ranges[0][0]) * self.scales[0], self.bottom - (float(value) - self.ranges[1][0]) * self.scales[1]

    def ends(self, box):
        """A box of six numbers as a rectangle of this view: left, top, right, bottom."""
        x0, y0 = self.place(box[0], box[self.axis])
        x1, y1 = self.place(box[3], box[self.axis + 3])
        return x0, y1, x1, y0

    def box(self, box, style):
        x0, y0, x1, y1 = self.ends(box)
        return svg.polyline([(x0, y0), (x1, y0), (x1, y1), (x0, y1)], style, closed=True)

    def outline(self, eight):
        """A moved box as the places of its outline."""
        return svg.convex_hull([self.place(p[0], p[self.axis]) for p in eight])

    def axes(self, name):
        across, from_x = axis_marks(*self.ranges[0], svg.round_step(70 / self.scales[0]))
        for value, label in across:
            x, _ = self.place(value, self.ranges[1][0])
            yield svg.line(x, self.bottom, x, self.top, 'stroke="#e4e4e4"')
            yield svg.text(x, self.bottom + 16, label, 11, "middle")
        up, from_value = axis_marks(*self.ranges[1], svg.round_step(34 / self.scales[1]))
        for value, label in up:
            _, y = self.place(self.ranges[0][0], value)
            yield svg.line(LEFT, y, self.right, y, 'stroke="#e4e4e4"')
            yield svg.text(LEFT - 6, y + 4, label, 11, "end")
        yield svg.text((LEFT + self.right) / 2, self.bottom + 34, "x (metres%s)" % from_x, 12, "middle")
        # Left of the longest label.
        x, y = min(LEFT - 48, max(10, LEFT - 18 - CHARACTER * max(len(label) for _, label in up))), (self.bottom + self.top) / 2
        yield svg.text(x, y, "%s (metres%s)" % ("xyz"[self.axis], from_value), 12, "middle", ' transform="rotate(-90 %s %s)"' % (svg.coordinate(x), svg.coordinate(y)))
        yield svg.text(LEFT, self.top - 10, name, 13, more=' font-weight="bold"')

    def frame(self):
        return svg.polyline([(LEFT, self.bottom), (self.right, self.bottom), (self.right, self.top), (LEFT, self.top)], FRAME, closed=True)


def extents(answers, moved):
    """Least and greatest x, y and z of all that is drawn."""
    boxes = [box for answer in answers.booms for box in answer.covers_in_plan(True) + answer.covers_in_plan(False)]
    boxes += [box_round(boxes) for times in moved for boxes in times]
    spans = [[[box[i], box[i + 3]] for box in boxes] for i in range(3)]
    for row in answers.plan.rows:
        spans[0].append([row.area[0], row.area[2]])
        spans[1].append([row.area[1], row.area[3]])
        spans[2].append(row.heights or [])
    for net in answers.plan.nets:
        area = net.region or net.line or []
        spans[0].append(area[0::2])
        spans[1].append(area[1::2])
        spans[2].append([net.height])
    return [(float(min(v for span in axis for v in span)), float(max(v for span in axis for v in span))) for axis in spans]


class Scene:
    """Both views of a plan, the side view below the other, and the booms at some times of their own, or at one time of the poses' clock."""

    def __init__(self, answers, between, shown=("above", "side"), time=None):
        self.answers, self.shown, self.time = answers, shown, time
        self.moved = [places(answer, pose_times(answer.boom, between) if time is None else [time]) for answer in answers.booms]
        ranges = extents(answers, self.moved)
        size = max(ranges[0][1] - ranges[0][0], ranges[1][1] - ranges[1][0], 1e-5 * max(abs(end) for ends in ranges for end in ends), 1e-3)
        room = ROOM * size
        x, y = [(low - room, high + room) for low, high in ranges[:2]]
        scale = min(WIDTH / (x[1] - x[0]), 640 / (y[1] - y[0]))
        x = wider(x, 0.55 * WIDTH / scale)
        y = wider(y, 120 / scale)
        # The ground is where the lowest mast stands.
        self.ground = min(float(answer.boom.mast[2]) for answer in answers.booms)
        low, high = min(ranges[2][0], self.ground), max(ranges[2][1], self.ground + 1e-5 * abs(self.ground) + 1e-3)
        more = 0.08 * (high - low)
        z = (low - more, high + more)
        self.above = View(1, [x, y], [scale, scale], TOP)
        side_top = self.above.bottom + GAP if "above" in shown else TOP
        self.side = View(2, [x, z], [scale, SIDE / (z[1] - z[0])], side_top)
        self.bottom = self.side.bottom if "side" in shown else self.above.bottom

    @cached_property
    def pieces(self):
        """Of each boom the boxes that hold its parts in short windows."""
        return [outline.window_boxes(answer) for answer in self.answers.progress.counted("outlines of booms", self.answers.booms)]

    def views(self):
        return [view for view, name in ((self.above, "above"), (self.side, "side")) if name in self.shown]


def wider(ends, least):
    more = max(least - (ends[1] - ends[0]), 0) / 2
    return ends[0] - more, ends[1] + more
