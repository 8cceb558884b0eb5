"""One HTML page of a plan with a time slider, on the clock of the poses and on the day's: every answer is worked out here, and the page only shows it."""
import html
import json
import os
import re
from fractions import Fraction

import svg
from planning import drawing, output, parked
from planning.ending import Ending
from planning.library import BOOMS
from planning.numbers import shown
from planning.reach import windows_in
from planning.scene import DRY, NET, NOW, REACHED, Scene, colour, places
from planning.schedule import schedule, ticks_on, windows_at

SAMPLES = 120
WAITS, RUNS, DONE = 0, 1, 2
TEMPLATE = os.path.join(os.path.dirname(os.path.abspath(__file__)), "page.html")


# ---- times

def round_step(least):
    """The least of 1, 2 and 5 times a power of ten that isn't below a number of seconds, exactly."""
    power = Fraction(1)
    while power > least:
        power /= 10
    while power * 10 <= least:
        power *= 10
    return next(m * power for m in (1, 2, 5, 10) if m * power >= least)


def sample_times(start, end):
    """From a start to an end in round steps, about 120 of them; the end itself is one."""
    if start == end:
        return [start]
    step = round_step((end - start) / SAMPLES)
    return [start + k * step for k in range(-(-(end - start) // step))] + [end]


# ---- what the slider shows

def points(view, eight):
    return " ".join("%s,%s" % (svg.coordinate(x), svg.coordinate(y)) for x, y in view.outline(eight))


def outlines(answers, found, i, times):
    """A boom in both views at some times of its own."""
    moved = places(answers.booms[i], times)
    return {"above": [[points(found.above, box) for box in boxes] for boxes in moved], "side": [[points(found.side, box) for box in boxes] for boxes in moved]}


def boom_on(answers, found, i, times, of_day):
    """A boom at some times of its own: where it is, in which of its windows each time lies, and the ends of its windows on a clock."""
    answer = answers.booms[i]
    return {**outlines(answers, found, i, times), "windows": [windows_at(answer.ticks, time - answer.own) for time in times],
            "ticks": [shown(round(tick, 3)) for tick in ticks_on(answers, i, of_day)]}


def bars(answers, of_day):
    """The schedule: row, boom, from, to."""
    return [[one.row, one.boom, float(one.start), float(one.end)] for one in schedule(answers, of_day)]


def pose_clock(answers, found, ticks):
    """Each boom goes by the times of its poses; two booms are asked for in the plan's windows."""
    times = sample_times(answers.plan.start(), answers.plan.end())
    return {"times": [shown(round(time, 3)) for time in times], "windows": [windows_at(ticks, time) for time in times], "bars": bars(answers, False),
            "booms": [boom_on(answers, found, i, times, False) for i in range(len(answers.booms))]}


def day_clock(answers, found):
    """Each boom's swing starts with its run; it waits at its first pose, and is done at its last."""
    seconds = answers.plan.tick_seconds
    runs = [(run.start * seconds, run.end * seconds) for run in answers.day]
    times = sorted({*sample_times(Fraction(0), max(end for _, end in runs)), *(time for run in runs for time in run)})
    standing = [{"from": float(one.start * seconds), "to": float(one.end * seconds), "text": parked.meeting_text(answers, one)} for one in parked.meetings(answers)]
    return {"times": [shown(round(time, 3)) for time in times], "ticks": [int(time // seconds) for time in times], "standing": standing,
            "bars": bars(answers, True), "booms": [day_of_boom(answers, found, i, times, run) for i, run in enumerate(runs)]}


def day_of_boom(answers, found, i, times, run):
    poses, (start, end) = answers.booms[i].boom.poses, run
    own = [min(poses[0].time + max(time - start, 0), poses[-1].time) for time in times]
    states = [WAITS if time < start else RUNS if time < end else DONE for time in times]
    return {**boom_on(answers, found, i, own, True), "states": states}


def boom_data(answers, i):
    """Its name and colour, and for each of its windows the places of the rows that are named in it."""
    answer, rows = answers.booms[i], [[] for _ in answers.booms[i].ticks[1:]]
    for place, mask in answer.masks.items():
        for w in windows_in(mask):
            rows[w].append(place)
    return {"name": answer.boom.name, "colour": colour(i), "rows": rows}


def page_data(answers, found, with_day):
    """All that the slider shows."""
    last, start = len(answers.ticks) - 1, answers.plan.start()
    ticks = [Fraction(tick) + start for tick in answers.float_ticks]
    return {
        "clocks": {"poses": pose_clock(answers, found, ticks), **({"day": day_clock(answers, found)} if with_day else {})},
        "windows": [[answers.tick_text(k, False), answers.tick_text(k + 1, True)] for k in range(last)],
        "rows": [row.name for row in answers.plan.rows],
        "booms": [boom_data(answers, i) for i in range(len(answers.booms))],
        "pairs": [{"boom": answers.booms[i].boom.name, "other": answers.booms[j].boom.name, "windows": windows} for (i, j), windows in answers.windows.items() if windows],
    }


# ---- parts of the page

def picture(answers, found):
    """Both views without booms, and an empty outline for each box of each boom in each view."""
    parts = [*drawing.above_parts(found, False, False), *drawing.side_parts(found, False)]
    for view in ("above", "side"):
        for i, answer in enumerate(answers.booms):
            parts += [f'<polygon id="{view}-{i}-{b}" fill="{colour(i)}" fill-opacity="0.55" stroke="{colour(i)}" stroke-width="1"/>' for b in range(len(answer.boxes))]
    width, height = found.above.right + 20, found.side.bottom + 44
    return (f'<svg xmlns="http://www.w3.org/2000/svg" viewBox="0 40 {width:.0f} {height - 40:.0f}" {svg.FONT} role="img" aria-label="The plan from above and from the side, at the time of the slider">'
            + "\n".join(parts) + "</svg>")


def legend(answers):
    """What is drawn, for those things that are there: a swatch and its words each."""
    grey = 'stroke="#444444"'
    entries = [(f'fill="#444444" fill-opacity="0.55" {grey}', "boom at the slider's time"), (f'fill="none" {grey} stroke-width="1.8"', "solid: the reserved box of a boom, which holds it at every time")]
    if any(answer.sprays for answer in answers.booms):
        entries.append((f'fill="none" {grey} stroke-width="1.2" stroke-dasharray="3 3"', "dashed: the reserved box of a boom and its spray"))
    entries.append((f'fill="none" {grey} stroke-width="0.9"', drawing.OUTLINE))
    if answers.plan.nets:
        entries.append((f'fill="none" stroke="{NET}" stroke-width="1.8" stroke-dasharray="10 3 2 3"', "net; along a line it is solid"))
    if answers.plan.rows:
        edge = 'stroke="#9aa58c"'
        entries += [(f'fill="{NOW}" {edge}', "row that a boom may reach now"), (f'fill="{REACHED}" {edge}', "row that a boom may reach at another time"), (f'fill="{DRY}" {edge}', "row that stays dry")]
    return "".join('<li><svg width="30" height="14" aria-hidden="true"><rect x="1" y="1" width="28" height="12" %s/></svg>%s</li>' % (style, html.escape(words)) for style, words in entries)


def alarm(records):
    """Above all else, what isn't below its net."""
    high = [record for record in records if record["answer"] == "NOT BELOW"]
    return "".join('<p class="warn">NOT BELOW: %s under %s, clearance %s m</p>' % (html.escape(record["boom"]), html.escape(record["net"]), output.cell(record["clearance"])) for record in high)


def table(records, empty=""):
    """Records as an HTML table; numbers to the right, and what isn't below its net in red. Each cell has its column's name, for where the table is folded."""
    if not records:
        return "<p>%s</p>" % html.escape(empty)
    def kind(value):
        return "number" if isinstance(value, (int, output.Plain)) else "list" if isinstance(value, list) else "warn" if value == "NOT BELOW" else ""
    columns = list(records[0])
    names = {column: html.escape(column.replace("_", " ")) for column in columns}
    kinds = {column: "number" if any(kind(record[column]) == "number" for record in records) else "" for column in columns}
    head = "".join('<th class="%s">%s</th>' % (kinds[column], names[column]) for column in columns)
    lines = ["".join('<td class="%s" data-column="%s">%s</td>' % (kind(value), names[column], html.escape(output.cell(value))) for column, value in record.items()) for record in records]
    return '<table class="folds"><thead><tr>%s</tr></thead><tbody>%s</tbody></table>' % (head, "".join("<tr>%s</tr>" % line for line in lines))


def day_records(answers):
    """The day, or none and why: with more booms than a day has, the page goes without it."""
    try:
        return list(output.day_records(answers)), ""
    except Ending as ending:
        if len(answers.booms) <= BOOMS:
            raise
        answers.warn("the page has no day: %s" % ending.text)
        return [], "No day: " + ending.text


def page(answers):
    found = Scene(answers, 1)
    nets, (day, no_day) = list(output.net_records(answers)), day_records(answers)
    with open(TEMPLATE, encoding="utf-8") as file:
        template = file.read()
    # No part of the data can end the script element that holds it.
    data = json.dumps(page_data(answers, found, bool(day)), separators=(",", ":")).replace("<", "\\u003c")
    parts = {"TITLE": html.escape(answers.plan.name), "PICTURE": picture(answers, found), "LEGEND": legend(answers), "ALARM": alarm(nets), "TICK": shown(answers.plan.tick_seconds),
             "NETS": table(nets, "The plan has no nets."), "COVERS": table(list(output.cover_records(answers, answers.with_pads))), "DAY": table(day, no_day), "DATA": data}
    return re.sub("@([A-Z]+)@", lambda found: parts[found[1]], template)
