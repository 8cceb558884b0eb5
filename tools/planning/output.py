"""Answers as records, and records as a table, CSV or JSON; lengths in metres to the millimetre, rounded outward by exact fractions."""
import csv
import io
import json

import binary32

CORNERS = ["x0", "y0", "z0", "x1", "y1", "z1"]


class Thousandths(int):
    """A length or a time that is written with three digits."""

    def text(self):
        return binary32.decimal_text(self)


def outward(box):
    """Least corners down, greatest up, to the millimetre."""
    half = len(box) // 2
    return [Thousandths(binary32.thousandths(v, i >= half)) for i, v in enumerate(box)]


def above(exact):
    return Thousandths(binary32.thousandths(exact, True))


def below(exact):
    return Thousandths(binary32.thousandths(exact, False))


# ---- records

def cover_records(answers, with_pads=True):
    """For each boom the cover of each box and, of several, of all; without its spray and, where it has pads, with it."""
    for answer in answers.booms:
        for sprays in [False] + [True] * (answer.sprays and with_pads):
            covers = answer.covers_in_plan(sprays)
            named = [("box %d" % (i + 1), cover) for i, cover in enumerate(covers)] + [("all", answer.union_in_plan(sprays))] if len(covers) > 1 else [("box 1", covers[0])]
            for box, cover in named:
                yield {"boom": answer.boom.name, "of": "boom and spray" if sprays else "boom", "box": box, **dict(zip(CORNERS, outward(cover)))}


def net_answer(found):
    return "not under it" if found.top is None else "below" if found.below() else "NOT BELOW"


def net_records(answers):
    for (n, b), found in answers.nets.items():
        net, boom = answers.plan.nets[n], answers.booms[b].boom
        under = found.top is not None
        yield {"net": net.name, "boom": boom.name, "height": below(net.height), "top": above(found.top) if under else None,
               "clearance": below(found.clearance) if under else None, "answer": net_answer(found)}


def row_records(answers):
    for place, row in enumerate(answers.plan.rows):
        yield {"row": row.name, "booms": answers.reached_by(place)}


def stretches(windows):
    """Neighbouring windows as one stretch: first and last."""
    found = []
    for k in windows:
        if found and found[-1][1] == k - 1:
            found[-1][1] = k
        else:
            found.append([k, k])
    return found


def window_records(answers):
    """Ends are rounded to the safe side: of a time in which two may meet outward, of one in which they never do inward."""
    for (i, j), windows in answers.windows.items():
        names = {"boom": answers.booms[i].boom.name, "other": answers.booms[j].boom.name}
        for first, last in stretches(windows):
            yield {**names, "answer": "may meet", "from": Plain(answers.tick_text(first, False)), "to": Plain(answers.tick_text(last + 1, True))}
        if not windows:
            yield {**names, "answer": "never meet", "from": Plain(answers.tick_text(0, True)), "to": Plain(answers.tick_text(len(answers.ticks) - 1, False))}


def day_records(answers):
    seconds = answers.plan.tick_seconds
    group_of = {i: k + 1 for k, group in enumerate(answers.groups) for i in group}
    for i, (answer, run) in enumerate(answers.progress.counted("rows of booms", zip(answers.booms, answers.day))):
        yield {"boom": answer.boom.name, "group": group_of[i], "start_tick": run.start, "end_tick": run.end, "from": below(run.start * seconds), "to": above(run.end * seconds), "rows": answers.rows_of(i)}


def schedule_records(answers, waterings):
    """Ends are rounded outward."""
    for one in waterings:
        yield {"row": answers.plan.rows[one.row].name, "boom": answers.booms[one.boom].boom.name, "from": below(one.start), "to": above(one.end)}


class Plain(str):
    """Text that is a number already."""


# ---- texts

def cell(value):
    if value is None:
        return ""
    if isinstance(value, Thousandths):
        return value.text()
    return "; ".join(value) if isinstance(value, list) else str(value)


def table_text(records, empty):
    """Columns side by side, numbers to the right."""
    if not records:
        return empty + "\n"
    columns = list(records[0])
    cells = [columns] + [[cell(record[column]) for column in columns] for record in records]
    widths = [max(len(line[i]) for line in cells) for i in range(len(columns))]
    right = [all(isinstance(record[column], (int, Plain, type(None))) for record in records) for column in columns]
    lines = ["  ".join(c.rjust(w) if r else c.ljust(w) for c, w, r in zip(line, widths, right)).rstrip() for line in cells]
    return "\n".join(lines) + "\n"


def csv_text(records, semicolons=False, mark=False):
    """Commas between the cells and points in the numbers, or semicolons and decimal commas; with a byte order mark or without."""
    def written(value):
        return cell(value).replace(".", ",") if semicolons and isinstance(value, (Thousandths, Plain)) else cell(value)
    columns = list(records[0]) if records else []
    out = io.StringIO()
    writer = csv.writer(out, lineterminator="\n", delimiter=";" if semicolons else ",")
    writer.writerow(columns)
    writer.writerows([written(record[column]) for column in columns] for record in records)
    return "\ufeff" * mark + out.getvalue()


def json_text(value, depth=0):
    """JSON in which lengths keep their three digits, a list of numbers on one line."""
    inner = "  " * (depth + 1)
    if isinstance(value, Thousandths):
        return value.text()
    if isinstance(value, Plain):
        return str(value)
    if isinstance(value, dict) and value:
        return "{\n" + ",\n".join("%s%s: %s" % (inner, json.dumps(key), json_text(v, depth + 1)) for key, v in value.items()) + "\n" + "  " * depth + "}"
    if isinstance(value, (list, tuple)) and value and not all(isinstance(v, (int, str)) for v in value):
        return "[\n" + ",\n".join(inner + json_text(v, depth + 1) for v in value) + "\n" + "  " * depth + "]"
    if isinstance(value, (list, tuple)):
        return "[" + ", ".join(json_text(v) for v in value) + "]"
    return json.dumps(value, ensure_ascii=False)
