"""A plan as SVG: rows, nets, booms and their covers, each label where it overlaps no other."""
import math

import svg
from planning import outline, scene
from planning.numbers import shown
from planning.scene import DRY, LEFT, NET, NOW, REACHED, WIDTH, Scene, box_round, colour
from planning.schedule import rows_at

BETWEEN = 3
MOST_ROW_NAMES = 100                    # more of them would not be read
MOST_LARGE_NAMES = 24                   # of booms; more of them are written smaller
LINE = 20
END_BOX = 'fill="none" stroke="#000000" stroke-width="1.4" stroke-dasharray="6 4"'
PATH = 'fill="none" stroke="#777777" stroke-width="0.9"'
OUTLINE = "thin: where the boom and its spray may be, by parts and times"
HALO = ' stroke="#ffffff" stroke-width="3.5" stroke-linejoin="round"'


class Labels:
    """Words that keep clear of one another."""

    def __init__(self, view):
        self.view, self.taken, self.parts = view, [], []

    def put(self, content, candidates, size=12, fill="#000000", weight="normal"):
        """At the first of some places, x, y and anchor, where it is inside the view and clear of the others; at the last where there is none."""
        width = 0.57 * size * len(content)
        for x, y, anchor in candidates:
            left = x - {"start": 0, "middle": width / 2, "end": width}[anchor]
            box = (left, y - size, left + width, y + 3)
            inside = box[0] >= LEFT and box[2] <= self.view.right and box[1] >= self.view.top and box[3] <= self.view.bottom
            if inside and not any(box[0] < t[2] and t[0] < box[2] and box[1] < t[3] and t[1] < box[3] for t in self.taken):
                break
        self.taken.append(box)
        style = ' fill="%s" font-weight="%s"' % (fill, weight)
        self.parts += [svg.text(x, y, content, size, anchor, style + HALO), svg.text(x, y, content, size, anchor, style)]

    def edge(self, content, ends, **style):
        """At an edge of a rectangle: above it, below it, or inside it."""
        x0, y0, x1, y1 = ends
        spots = [(x0 + 2, y0 - 5, "start"), (x1 - 2, y0 - 5, "end"), (x0 + 2, y1 + 14, "start"), (x1 - 2, y1 + 14, "end")]
        self.put(content, spots + [(x0 + 5, y0 + 15, "start"), (x1 - 5, y1 - 6, "end"), (x0 + 5, y1 - 6, "start"), (x0 + 2, y0 - 5, "start")], **style)


# ---- parts of a view

def cover_styles(i):
    return f'fill="none" stroke="{colour(i)}" stroke-width="1.8"', f'fill="none" stroke="{colour(i)}" stroke-width="1.2" stroke-dasharray="3 3"'


def row_parts(found, labels):
    """Rows from above, those that a boom may reach in green, and in a stronger green in the window of the time that is shown."""
    plan, now = found.answers.plan, set() if found.time is None else rows_at(found.answers, found.time)
    for place, row in enumerate(plan.rows):
        x0, y0, x1, y1 = row.area
        box = [x0, y0, 0, x1, y1, 0]
        fill = NOW if place in now else REACHED if found.answers.reached_by(place) else DRY
        yield found.above.box(box, f'class="row" data-row="{place}" fill="{fill}" stroke="#9aa58c" stroke-width="0.6"')
        left, top, right, bottom = found.above.ends(box)
        if len(plan.rows) <= MOST_ROW_NAMES:
            labels.put(row.name, [(left + 4, (top + bottom) / 2 + 4, "start"), (right - 4, (top + bottom) / 2 + 4, "end"), (left + 4, top - 3, "start")], size=11, fill="#44513a")


def net_parts(found, view, labels):
    """From above a net's rectangle or line; from the side its height, over its stretch of x, and of a line across x all above it."""
    for net in found.answers.plan.nets:
        area = net.region or net.line
        label = "%s, %s m up" % (net.name, svg.plain(float(net.height))) if net.height else net.name
        if view is found.above:
            if net.region:
                box = [area[0], area[1], 0, area[2], area[3], 0]
                yield view.box(box, f'fill="none" stroke="{NET}" stroke-width="1.4" stroke-dasharray="10 3 2 3"')
                left, top, right, bottom = view.ends(box)
                labels.put(label, [(right - 6, top + 15, "end"), (left + 6, top + 15, "start"), (right - 6, bottom - 6, "end")], fill=NET)
            elif net.line:
                ends = [view.place(*area[:2]), view.place(*area[2:])]
                yield svg.line(*ends[0], *ends[1], f'stroke="{NET}" stroke-width="2.6"')
                (x0, y0), (x1, y1) = sorted(ends, key=lambda end: end[1])
                spots = [(x0 + 7, y0 + 13, "start"), (x0 - 7, y0 + 13, "end"), (x1 + 7, y1 - 5, "start"), (x1 - 7, y1 - 5, "end")]
                labels.put(label, spots + [((x0 + x1) / 2 + 7, (y0 + y1) / 2, "start"), ((x0 + x1) / 2 - 7, (y0 + y1) / 2, "end")], fill=NET)
        else:
            low, high = (min(area[0::2]), max(area[0::2])) if area else view.ranges[0]
            (x0, y), (x1, _) = view.place(low, net.height), view.place(high, net.height)
            if x1 - x0 < 2:
                yield svg.line(x0, y, x0, view.top, f'stroke="{NET}" stroke-width="2.6"')
                labels.put(label, [(x0 + 7, view.top + 14, "start"), (x0 - 7, view.top + 14, "end"), (x0 + 7, y - 4, "start"), (x0 - 7, y - 4, "end")], size=11, fill=NET)
            else:
                yield svg.line(x0, y, x1, y, f'stroke="{NET}" stroke-width="1.8" stroke-dasharray="10 3 2 3"')
                labels.put(label, [(x0 + 4, y - 5, "start"), (x1 - 4, y - 5, "end"), (x0 + 4, y + 13, "start")], size=11, fill=NET)


def ground(found):
    (x0, y), (x1, _) = [found.side.place(x, found.ground) for x in found.side.ranges[0]]
    return svg.line(x0, y, x1, y, 'stroke="#7a5c2e" stroke-width="1.2"')


def boom_parts(found, view):
    """Each boom at its first pose, some times on the way, and its last pose, the last the strongest; and the path of its far end."""
    for i, times in enumerate(found.moved):
        for k, boxes in enumerate(times):
            strength, edge = (0.45, 0.9) if k == len(times) - 1 else (0.25, 0.9) if k == 0 else (0.1, 0.4)
            style = f'fill="{colour(i)}" fill-opacity="{strength}" stroke="{colour(i)}" stroke-width="0.8" stroke-opacity="{edge}"'
            yield from (svg.polyline(view.outline(eight), style, closed=True) for eight in boxes)


def cover_parts(found, view):
    for i, answer in enumerate(found.answers.booms):
        solid, dashed = cover_styles(i)
        if answer.sprays:
            yield from (view.box(box, dashed) for box in answer.covers_in_plan(True))
        yield from (view.box(box, solid) for box in answer.covers_in_plan(False))


def piece_parts(found, view):
    """Of each boom the outline of where it and its spray may be, which is less than its box."""
    for i, boxes in enumerate(found.pieces):
        yield f'<path class="pieces" d="{outline.path(view, boxes)}" fill="none" stroke="{colour(i)}" stroke-width="0.9"/>'


def mast_parts(found):
    for i, answer in enumerate(found.answers.booms):
        x, y = found.above.place(*answer.boom.mast[:2])
        yield f'<circle cx="{svg.coordinate(x)}" cy="{svg.coordinate(y)}" r="4" fill="{colour(i)}" stroke="#ffffff"/>'


def name_booms(found, labels):
    """Each boom's name at an edge of its reserved box, the one with its spray where it has one."""
    alone, size = len(found.answers.booms) == 1, 13 if len(found.answers.booms) <= MOST_LARGE_NAMES else 8
    for i, answer in enumerate(found.answers.booms):
        union = answer.union_in_plan(True)
        labels.edge("the reserved box: holds the boom at every time" if alone else answer.boom.name, found.above.ends(union), fill=colour(i), weight="bold", size=size)


def end_boxes(found, labels):
    """Dashed, the box round a boom's first and last pose, and the path of the corner that leaves it furthest."""
    for answer, times in zip(found.answers.booms, found.moved):
        box = box_round(times[0] + times[-1])
        yield found.above.box(box, END_BOX)
        left, top, right, bottom = found.above.ends(box)
        labels.put("the box round the two end poses", [(left + 2, bottom + 16, "start"), (right - 2, bottom - 7, "end"), (left + 2, top - 5, "start")])
        path = leaving_path(answer, box)
        if path:
            yield svg.polyline([found.above.place(p[0], p[1]) for p in path], PATH)
            far = max(path, key=lambda p: outside(p, box))
            x, y = found.above.place(far[0], far[1])
            yield f'<circle cx="{svg.coordinate(x)}" cy="{svg.coordinate(y)}" r="3.5" fill="#000000"/>'
            labels.put("on the way the tip is %.1f m outside the dashed box" % outside(far, box), [(x - 8, y - 16, "end"), (x + 8, y - 16, "start"), (x - 8, y + 24, "end")])


def outside(p, box):
    """How far a point is outside a box, from above."""
    return max(max(box[i] - p[i], p[i] - box[i + 3]) for i in range(2))


def leaving_path(answer, box):
    """The path, from above, of the corner that leaves a box furthest on the way; none where none leaves it by a centimetre."""
    moved = scene.places(answer, scene.pose_times(answer.boom, 63))
    paths = [[time[b][c] for time in moved] for b in range(len(answer.boxes)) for c in range(8)]
    path = max(paths, key=lambda points: max(outside(p, box) for p in points))
    return path if max(outside(p, box) for p in path) > 0.01 else None


# ---- the picture

def above_parts(found, end_box, with_booms=True):
    labels = Labels(found.above)
    yield from found.above.axes("From above")
    rows = list(row_parts(found, labels))
    yield from rows
    yield from net_parts(found, found.above, labels)
    if with_booms:
        yield from boom_parts(found, found.above)
    yield from cover_parts(found, found.above)
    if end_box:
        yield from end_boxes(found, labels)
    else:
        yield from piece_parts(found, found.above)
    yield from mast_parts(found)
    name_booms(found, labels)
    yield from labels.parts
    yield found.above.frame()


def side_parts(found, with_booms=True):
    labels = Labels(found.side)
    labels.taken += [found.side.ends(box) for answer in found.answers.booms for box in answer.covers_in_plan(False)]
    stretch = found.side.scales[1] / found.side.scales[0]
    yield from found.side.axes("From the side" + (", heights drawn %.2g times larger" % stretch if stretch > 1.05 else ""))
    yield ground(found)
    yield from net_parts(found, found.side, labels)
    if with_booms:
        yield from boom_parts(found, found.side)
    yield from cover_parts(found, found.side)
    yield from labels.parts
    yield found.side.frame()


def columns(found):
    return 2 if found.above.width > 0.8 * WIDTH else 1


def legend(found, y, end_box):
    """What is drawn, for those things that are there."""
    plan, booms = found.answers.plan, found.answers.booms
    grey = 'stroke="#444444"'
    words = "boom at its last pose, paler at its first and on the way" if found.time is None else "boom at %s s" % shown(found.time)
    entries = [(f'fill="#444444" fill-opacity="0.45" {grey}', words), (f'fill="none" {grey} stroke-width="1.8"', "the reserved box of the boom")]
    if any(answer.sprays for answer in booms):
        entries.append((f'fill="none" {grey} stroke-width="1.2" stroke-dasharray="3 3"', "the reserved box of the boom and its spray"))
    if "above" in found.shown and not end_box:
        entries.append((f'fill="none" {grey} stroke-width="0.9"', OUTLINE))
    if plan.rows and "above" in found.shown:
        if found.time is not None:
            entries.append((f'fill="{NOW}" stroke="#9aa58c"', "row that a boom may reach in the window of that time"))
        entries += [(f'fill="{REACHED}" stroke="#9aa58c"', "row that a boom may reach" + ("" if found.time is None else " at another time")), (f'fill="{DRY}" stroke="#9aa58c"', "row that stays dry")]
    if plan.nets:
        entries.append((f'fill="none" stroke="{NET}" stroke-width="1.8"', "net"))
    for k, (style, words) in enumerate(entries):
        x, row = LEFT + k % columns(found) * WIDTH / 2, y + k // columns(found) * LINE
        yield f'<rect x="{svg.coordinate(x)}" y="{svg.coordinate(row - 10)}" width="26" height="11" {style}/>'
        yield svg.text(x + 34, row, words)


def picture(answers, view="both", end_box=False, time=None):
    found = Scene(answers, BETWEEN, ("above", "side") if view == "both" else (view,), time)
    parts = [svg.text(LEFT, 30, answers.plan.name, 17, more=' font-weight="bold"')]
    parts += above_parts(found, end_box) if "above" in found.shown else []
    parts += side_parts(found) if "side" in found.shown else []
    y = found.bottom + 62
    entries = list(legend(found, y, end_box))
    height = y + LINE * math.ceil(len(entries) / 2 / columns(found)) + 4
    return svg.document(found.above.right + 34, height, answers.plan.name, [*parts, *entries])
