"""Plans on disk: one JSON file, or a folder of CSV files; and where answers are written."""
import csv
import difflib
import io
import json
import os
import re
import sys

from planning import reading, source
from planning.ending import bad, numbered, one_line
from planning.numbers import Number, exact, whole

# What each CSV file of a folder is for, and its columns; those that must be there come first.
COLUMNS = {
    "booms.csv": (["boom", "x0", "y0", "z0", "x1", "y1", "z1"], ["kind", "run_ticks"]),
    "poses.csv": (["boom", "time", "x", "y", "z", "heading"], ["tilt", "pad"]),
    "rows.csv": (["row", "x0", "y0", "x1", "y1"], ["z0", "z1"]),
    "nets.csv": (["net", "height"], ["x0", "y0", "x1", "y1", "shape"]),
    "settings.csv": (["setting", "value"], []),
}
WORDS = ("boom", "row", "net", "setting", "kind", "shape")     # columns without numbers
# Numbers with a decimal comma, with a point, and with a point that may mark thousands.
COMMA, POINT = r"[+-]?\d*,\d*([eE][+-]?\d+)?", r"[+-]?\d*\.\d*([eE][+-]?\d+)?"
THOUSANDS = r"[+-]?[1-9]\d{0,2}\.\d{3}"


def text_of(path):
    """A file's text in UTF-8; a byte order mark is passed over."""
    data = source.bytes_of(path)
    try:
        return data.decode("utf-8-sig")
    except UnicodeDecodeError as problem:
        raise bad("it is not UTF-8: byte %d; save it as UTF-8" % problem.start)


def read_plan(path, warn=lambda text: None):
    """The plan of a JSON file, of a folder of CSV files, or of standard input for `-`."""
    name = os.path.splitext(os.path.basename(os.path.abspath(path)))[0] if path != "-" else "plan"
    name = one_line(name, reading.MOST_NAME).replace(";", "_") or "plan"
    if os.path.isdir(path):
        return reading.plan(folder(path, warn), name)
    if path.endswith(".csv"):
        raise bad("a plan in CSV is a folder with booms.csv and poses.csv in it; name the folder")
    return reading.plan(json_values(text_of(path)), name)


# ---- JSON

def json_values(text):
    def once(pairs):
        found = dict(pairs)
        if len(found) < len(pairs):
            keys = [key for key, _ in pairs]
            raise bad("the key '%s' is there twice in one object" % one_line(next(key for key in keys if keys.count(key) > 1), 60))
        return found
    try:
        return json.loads(text, parse_float=Number, parse_int=Number, parse_constant=Number, object_pairs_hook=once)
    except json.JSONDecodeError as problem:
        raise bad("it is not JSON: line %d, column %d: %s" % (problem.lineno, problem.colno, problem.msg))
    except RecursionError:
        raise bad("it is not a plan: lists within lists without end")


# ---- CSV

class Line:
    """A line of a CSV file: its cells by their columns, those that are empty left out, and where each stands."""

    def __init__(self, file, place, columns, cells):
        self.file, self.place = file, place
        self.cells = {column: cell for column, cell in zip(columns, cells) if cell}
        self.places = {column: k + 1 for k, column in enumerate(columns)}

    def __contains__(self, column):
        return column in self.cells

    def where(self, column=None):
        return "%s: line %d%s" % (self.file, self.place, ", column %d (%s)" % (self.places[column], column) if column else "")

    def at(self, column=None):
        """Says what is wrong of this line, or of one cell of it."""
        return reading.at(self.where(column))

    def read(self, column, read):
        with self.at(column):
            return read(self.cells[column])

    def word(self, column, read):
        """One of some words, in small letters or capitals."""
        return self.read(column, lambda text: read(text.lower()))

    def number(self, column, read=exact):
        """The number as it is written, once it has been looked at."""
        self.read(column, read)
        return Number(self.cells[column])

    def box(self, *columns, read=reading.ordered):
        values = [self.number(column) for column in columns]
        with self.at():
            read(tuple(map(exact, values)))
        return values


def separator(text):
    """What stands between the cells: of semicolons, tabs and commas the one that the first line has most of."""
    first = next((line for line in text.splitlines() if line.strip()), "")
    return max(",;\t", key=first.count)


def csv_lines(text, between):
    """Each line that isn't empty, with its number."""
    reader, found = csv.reader(io.StringIO(text, newline=""), strict=True, delimiter=between), []
    try:
        for cells in reader:
            if any(cell.strip() for cell in cells):
                found.append((reader.line_num, [cell.strip() for cell in cells]))
    except csv.Error as problem:
        raise bad("line %d: it is not CSV: %s" % (reader.line_num, problem))
    return found


def column_name(text):
    """In small letters, with _ for spaces."""
    return "_".join(text.lower().split())


def columns_of(header, needed, more, warn):
    """The names of the columns. One that isn't known is passed over, with a warning; one that may be a known one misspelt is refused."""
    columns = [column_name(cell) for cell in header]
    missing = [column for column in needed + more if column not in columns]
    for k, column in enumerate(columns):
        with reading.at("line 1, column %d" % (k + 1)):
            if column in needed + more and columns.count(column) > 1:
                raise bad("'%s' is there twice" % column)
            near = difflib.get_close_matches(column, missing, 1, 0.7) if column not in needed + more else []
            if near:
                raise bad("'%s' is no column; is '%s' meant?" % (one_line(header[k], 60), near[0]))
    absent = [column for column in needed if column in missing]
    if absent:
        raise bad("the column '%s' is missing; its first line names the columns: %s" % (absent[0], ",".join(needed + more)))
    extra = [one_line(header[k], 60) for k, column in enumerate(columns) if column and column not in needed + more]
    if extra:
        warn("not read: the column%s %s" % ("s" * (len(extra) > 1), ", ".join("'%s'" % name for name in extra)))
    return columns


def numbers_like(pattern, lines):
    """The cells with numbers that are written so: the line and the column of each."""
    return [(line, column) for line in lines for column, cell in line.cells.items() if column not in WORDS and re.fullmatch(pattern, cell, re.ASCII)]


def with_points(lines, between, warn):
    """Decimal commas as points, where commas don't stand between the cells; a file has the one or the other, since beside a decimal comma a point may mark thousands."""
    commas, points = numbers_like(COMMA, lines), numbers_like(POINT, lines)
    if commas and between == ",":
        line, column = commas[0]
        with line.at(column):
            raise bad("'%s': a decimal comma goes with semicolons between the cells" % one_line(line.cells[column]))
    if commas and points:
        line, column = points[0]
        with line.at(column):
            raise bad("'%s' has a point, and line %d a decimal comma: a file has the one or the other" % (one_line(line.cells[column]), commas[0][0].place))
    if points and between != "," and points == numbers_like(THOUSANDS, lines):
        line, column = points[0]
        warn("%s: '%s' and the like are read with a decimal point, not as thousands" % (line.where(column), line.cells[column]))
    for line, column in commas:
        line.cells[column] = line.cells[column].replace(",", ".")
    return lines


def table(folder_path, file, warn):
    """The lines of a CSV file below its header."""
    with reading.at(file):
        needed, more = COLUMNS[file]
        text = text_of(os.path.join(folder_path, file))
        between = separator(text)
        lines = csv_lines(text, between)
        if not lines:
            raise bad("it is empty; its first line names the columns: %s" % ",".join(needed + more))
        columns = columns_of(lines[0][1], needed, more, lambda said: warn("%s: %s" % (file, said)))
    return with_points([filled(file, number, columns, cells, needed, more) for number, cells in lines[1:]], between, warn)


def filled(file, number, columns, cells, needed, more):
    """A line with a cell for each column that must have one."""
    line = Line(file, number, columns, cells)
    line.cells = {column: cell for column, cell in line.cells.items() if column in needed + more}
    with line.at():
        if any(cells[len(columns):]):
            raise bad("%d cells for %d columns" % (len(cells), len(columns)))
        for column in needed:
            if column not in line:
                raise bad("the cell of '%s' is empty" % column)
    return line


def folder(path, warn):
    """The files of a folder as the values that a JSON file would have."""
    def lines(file):
        return table(path, file, warn) if os.path.exists(os.path.join(path, file)) else []
    for file in ("booms.csv", "poses.csv"):
        if not os.path.exists(os.path.join(path, file)):
            raise bad("there is no %s in this folder" % file)
    values = settings(lines("settings.csv"))
    values["booms"] = booms(lines("booms.csv"), lines("poses.csv"))
    values["rows"] = [{"name": name, "box": row_box(line)} for line, name in named(lines("rows.csv"), "row")]
    values["nets"] = [net(line, name) for line, name in named(lines("nets.csv"), "net")]
    return values


def settings(lines):
    read, found = {"depth": lambda text: whole(text, 0, reading.MOST_DEPTH), "tick_seconds": reading.above_zero, "window_seconds": reading.above_zero}, {}
    for line in lines:
        setting = column_name(line.cells["setting"])
        with line.at("setting"):
            if setting in found or setting not in read:
                raise bad("'%s' is no setting, or is there twice: %s" % (one_line(line.cells["setting"], 60), ", ".join(read)))
        found[setting] = line.number("value", read[setting])
    return found


def named(lines, column):
    """Each line with its name, each name once."""
    found = {}
    for line in lines:
        name = line.read(column, reading.name_of)
        with line.at(column):
            if name in found:
                raise bad("the name '%s' is in line %d too" % (one_line(name, 60), found[name]))
        found[name] = line.place
        yield line, name


def booms(box_lines, pose_lines):
    """A line of booms.csv for each box of a boom; its poses in the order of their lines."""
    found, last = {}, {}
    for line in box_lines:
        name = line.read("boom", reading.name_of)
        entry = found.setdefault(name, {"name": name, "boxes": [], "poses": []})
        entry["boxes"].append(line.box("x0", "y0", "z0", "x1", "y1", "z1"))
        given = {"kind": line.word("kind", reading.kind)} if "kind" in line else {}
        given.update({"run_ticks": line.number("run_ticks", reading.ticks)} if "run_ticks" in line else {})
        for column, value in given.items():
            with line.at(column):
                if entry.setdefault(column, value) != value:
                    raise bad("boom '%s' has another %s above" % (one_line(name, 60), column))
    for line in pose_lines:
        name = line.cells["boom"]
        with line.at("boom"):
            if name not in found:
                raise bad("there is no boom '%s' in booms.csv" % one_line(name, 60))
        found[name]["poses"].append(pose(line, last.get(name)))
        last[name] = line
    return list(found.values())


def pose(line, before):
    """A line of poses.csv, later than that of the boom's pose before."""
    found = {"time": line.number("time"), "at": [line.number(column) for column in "xyz"]}
    with line.at("time"):
        if before and exact(line.cells["time"]) <= exact(before.cells["time"]):
            raise numbered(12, "the time %s is not after %s in line %d; " % (line.cells["time"], before.cells["time"], before.place))
    found.update((column, line.number(column)) for column in ("heading", "tilt", "pad") if column in line)
    if "pad" in line and exact(line.cells["pad"]) < 0:
        with line.at("pad"):
            raise numbered(16)
    return found


def row_box(line):
    with line.at():
        if ("z0" in line) != ("z1" in line):
            raise bad("z0 and z1 are both given, or neither, for every height")
    return line.box(*(["x0", "y0", "z0", "x1", "y1", "z1"] if "z0" in line else ["x0", "y0", "x1", "y1"]))


def net(line, name):
    """A rectangle, or with the shape `line` a line from one place to another; without places everywhere."""
    found = {"name": name, "height": line.number("height")}
    shape = line.word("shape", net_shape) if "shape" in line else "region"
    ends = [column for column in ("x0", "y0", "x1", "y1") if column in line]
    with line.at():
        if len(ends) not in (0, 4) or ("shape" in line and not ends):
            raise bad("x0, y0, x1 and y1 are all given, or none and no shape")
    if ends:
        found[shape] = line.box(*ends, **({"read": tuple} if shape == "line" else {}))
    return found


def net_shape(text):
    if text not in ("region", "line"):
        raise bad("region or line is wanted here, not '%s'" % one_line(text, 60))
    return text


# ---- answers

def write_text(path, text):
    """To a file, or to standard output without one."""
    if path is None and sys.stdout is None:
        raise bad("standard output is closed")
    try:
        if path is None:
            sys.stdout.buffer.write(text.encode("utf-8"))
            sys.stdout.buffer.flush()
        else:
            with open(path, "wb") as file:
                file.write(text.encode("utf-8"))
    except (OSError, ValueError) as problem:
        raise bad("%s: %s" % (one_line(path or "standard output"), getattr(problem, "strerror", None) or "it can't be written"))
