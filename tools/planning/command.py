"""The command line of tools/plan."""
import argparse
import os
import sys
from dataclasses import replace

from planning import chains, drawing, files, geojson, moves, numbers, output, page, parked, reading, slips
from planning.schedule import schedule
from planning.answers import Answers
from planning.ending import Ending, bad, numbered, one_line, refused
from planning.library import BOOMS, DEFAULT, load
from planning.progress import Progress

ABOUT = """\
Answers a plan of booms in metres and seconds, through the proved library.

PLAN is a JSON file, a folder of CSV files (booms.csv, poses.csv; rows.csv, nets.csv and settings.csv where there are such), or - for JSON from standard
input; docs/for-planners.md has their layout. Lengths are in metres, times in seconds, angles in degrees against the clock seen from above; answers are
rounded outward to the millimetre."""
EPILOG = """\
Exit status: 0 with an answer, 1 where the plan is refused (docs/REFUSALS.md has the numbers), 2 for bad usage, a bad file or no library; then one line on
standard error says what and where. The library is target/lib/libjellyplain.so.2, which `make` writes, or what --library or JELLYPLAIN_LIBRARY names."""
QUESTIONS = {
    "covers": "the box that holds each boom at every time, without and with its spray",
    "nets": "whether each boom stays below each net that it stands under, and by how much",
    "rows": "which booms may reach each row",
    "schedule": "from when to when each boom may reach each row, on the clock of the poses or on the day's",
    "windows": "for each two booms, when they may meet",
    "day": "from which tick to which each boom runs so that no two that run ever meet, and the rows that it may reach; in groups of at most 8 booms whose boxes meet",
    "moves": "each boom's chain as a move file in the folder of -o, with the frame and the clock that it stands in",
    "draw": "the plan from above and from the side, as SVG",
    "page": "one HTML page with a time slider, which needs nothing else",
}
FORMATS = {"covers": ["table", "csv", "json", "geojson"], "nets": ["table", "csv", "json", "geojson"], "rows": ["table", "csv", "json", "geojson"], "schedule": ["table", "csv", "json", "geojson"],
           "windows": ["table", "csv", "json", "geojson"],
           "day": ["table", "csv", "json", "geojson"], "moves": ["table", "csv", "json"]}


class Parser(argparse.ArgumentParser):
    """Says what is wrong with its arguments in one line."""

    def error(self, message):
        raise bad("%s; see tools/plan --help" % one_line(message))


def depth(text):
    return numbers.whole(text, 0, reading.MOST_DEPTH)


def seconds(text):
    value = numbers.exact(text)
    if value <= 0:
        raise bad("%s: seconds above 0 are wanted" % text)
    return value


def parser():
    made = Parser(prog="tools/plan", description=ABOUT, epilog=EPILOG, formatter_class=argparse.RawDescriptionHelpFormatter, allow_abbrev=False)
    questions = made.add_subparsers(dest="question", metavar="QUESTION", required=True)
    for name, about in QUESTIONS.items():
        one = questions.add_parser(name, help=about, description=about[0].upper() + about[1:] + ".", epilog=EPILOG, formatter_class=argparse.RawDescriptionHelpFormatter, allow_abbrev=False)
        one.add_argument("plan", metavar="PLAN", help="a JSON file, a folder of CSV files, or -")
        if name == "moves":
            one.add_argument("-o", dest="folder", metavar="FOLDER", required=True, help="where the files go; the table of them goes to standard output")
        else:
            one.add_argument("-o", dest="out", metavar="FILE", help="write the answer to FILE (default: standard output)")
        one.add_argument("--library", metavar="FILE", help="the shared library")
        one.add_argument("--depth", metavar="N", help="0 to 12: each move, or its share of a window, is worked in 2^N slices; greater is tighter and slower (default: the plan's, or 10)")
        one.add_argument("--split", action="store_true", help="set poses on the way where a turn has 180 degrees or more, which is refused otherwise")
        one.add_argument("--without-pads", action="store_true", help="leave the spray aside in the covers, windows and the day (nets leave it aside anyway, rows never)")
        if name in FORMATS:
            one.add_argument("--format", choices=FORMATS[name], default="table", help="default: table")
            one.add_argument("--semicolons", action="store_true", help="in CSV: semicolons between the cells and decimal commas")
            one.add_argument("--byte-order-mark", action="store_true", help="in CSV: a byte order mark in front, by which some spreadsheets know UTF-8")
        if "geojson" in FORMATS.get(name, []):
            one.add_argument("--frame", metavar="EPSG:NUMBER", help="in GeoJSON: the frame of the plan's x and y (default: one of its own, in metres)")
        if name in ("rows", "schedule", "windows", "day", "draw", "page"):
            one.add_argument("--every", metavar="SECONDS", help="the length of a window (default: the plan's window_seconds, or a twentieth of the plan's time)")
        if name == "schedule":
            one.add_argument("--day", dest="of_day", action="store_true", help="on the day's clock: each boom's swing begins with its run")
        if name in ("schedule", "day", "page"):
            one.add_argument("--tick", metavar="SECONDS", help="the length of a tick (default: the plan's tick_seconds, or 1)")
        if name in ("schedule", "day"):
            one.add_argument("--parked-elsewhere", action="store_true", help="accept a day in which a boom that waits at its first pose, or is done at its last, stands in a box of one that runs")
        if name == "draw":
            one.add_argument("--view", choices=["both", "above", "side"], default="both", help="default: both")
            one.add_argument("--at", metavar="SECONDS", help="the booms at one time of the poses' clock, and the rows that they may reach in the window of that time (default: the whole swing)")
            one.add_argument("--end-box", action="store_true", help="with a dashed box round each boom's end poses, which the boom may leave on the way")
    return made


def with_options(plan, options):
    """The plan with what the command line says otherwise."""
    for name, field, read in (("depth", "depth", depth), ("every", "window_seconds", seconds), ("tick", "tick_seconds", seconds)):
        if getattr(options, name, None) is not None:
            with reading.at("--" + name):
                plan = replace(plan, **{field: read(getattr(options, name))})
    return plan


def with_short_turns(plan, split, warn):
    booms = []
    for boom in plan.booms:
        with reading.at("boom '%s'" % boom.name):
            booms.append(chains.with_turns_split(boom, split, warn))
    return replace(plan, booms=tuple(booms))


def time_of(options):
    """The one time that is drawn, or none."""
    with reading.at("--at"):
        if options.at is not None and options.end_box:
            raise bad("it goes without --end-box")
        return None if options.at is None else numbers.exact(options.at)


def text_of(answers, options):
    """The answer to the question, as text."""
    if options.question == "draw":
        return drawing.picture(answers, options.view, options.end_box, time_of(options))
    if options.question == "page":
        return page.page(answers)
    if options.format == "geojson":
        return geojson.geojson_text(answers, options.question, options.frame, is_day(options))
    records, empty = {
        "covers": (lambda: output.cover_records(answers, answers.with_pads), ""),
        "nets": (lambda: output.net_records(answers), "the plan has no nets"),
        "rows": (lambda: output.row_records(answers), "the plan has no rows"),
        "schedule": (lambda: output.schedule_records(answers, schedule(answers, options.of_day)), "no boom may reach a row"),
        "windows": (lambda: output.window_records(answers), "the plan has one boom"),
        "day": (lambda: output.day_records(answers), ""),
        "moves": (lambda: moves.write_moves(answers, options.folder), ""),
    }[options.question]
    return formatted(options, answers.plan.name, list(records()), empty)


def formatted(options, name, records, empty):
    if options.format == "table":
        return output.table_text(records, empty)
    if options.format == "json":
        clock = {"clock": "day" if options.of_day else "poses"} if options.question == "schedule" else {}
        return output.json_text({"plan": name, "depth": options.used_depth, **clock, options.question: records}) + "\n"
    if options.question == "rows":
        records = [{"row": record["row"], "boom": boom} for record in records for boom in record["booms"] or [None]]
    return output.csv_text(records, options.semicolons, options.byte_order_mark)


def is_day(options):
    """Whether the answer is about the day."""
    return options.question == "day" or getattr(options, "of_day", False)


def warn_of_nets(answers, warn):
    for (n, b), found in answers.nets.items():
        if not found.below():
            warn("boom '%s': it is not below net '%s'" % (answers.booms[b].boom.name, answers.plan.nets[n].name))


def warn_of_slips(answers, options, warn):
    """Numbers that are likely slips; those of rows where rows are named."""
    named = options.question in ("rows", "schedule", "day", "draw", "page") or getattr(options, "format", None) == "geojson"
    for text in [*slips.of_booms(answers), *(slips.of_rows(answers) if named else [])]:
        warn(text)


def look_at_parked(answers, options, warn):
    """A boom that stands in a box of one that runs: the day is refused, unless it is parked elsewhere; of a page it is a warning."""
    try:
        found = parked.meetings(answers)
    except Ending:
        if options.question == "page":
            return              # what the page has is written, and it has no day
        raise
    if found and is_day(options) and not options.parked_elsewhere:
        raise refused(parked.refusal_text(answers, found))
    for meeting in found:
        warn("%s; park it elsewhere" % parked.meeting_text(answers, meeting))


def tell_groups(answers, note):
    """Of more booms than a day of the library has, why it is answered all the same."""
    if len(answers.booms) > BOOMS:
        note("%d booms in %d groups, a day for each: no box of one group meets a box of another, so no boom of one is ever where one of another is, and neither has to know of the other"
             % (len(answers.booms), len(answers.groups)))


def answered(options, warn, note, progress):
    load(options.library or os.environ.get("JELLYPLAIN_LIBRARY") or DEFAULT)
    with reading.at(one_line(options.plan)):
        plan = with_options(files.read_plan(options.plan, warn), options)
        options.used_depth = plan.depth
        try:
            answers = Answers(with_short_turns(plan, options.split, warn), not options.without_pads, warn, progress)
            text = text_of(answers, options)
            if is_day(options) or options.question == "page":
                look_at_parked(answers, options, warn)
        except OverflowError:
            raise numbered(5)
        if options.question in ("nets", "draw", "page"):
            warn_of_nets(answers, warn)
        warn_of_slips(answers, options, warn)
        if is_day(options):
            tell_groups(answers, note)
    files.write_text(getattr(options, "out", None), text)


def main(arguments):
    """The exit status; warnings and notes are printed only with an answer, so that what is wrong is one line."""
    said, progress = [], Progress(sys.stderr)
    try:
        options = parser().parse_args(arguments)
        answered(options, lambda text: said.append("warning: " + text), said.append, progress)
    except Ending as ending:
        return ended(progress, ending.text, ending.status)
    except (KeyboardInterrupt, MemoryError) as problem:
        return ended(progress, "interrupted" if isinstance(problem, KeyboardInterrupt) else "out of memory")
    except Exception as problem:        # not to be reached: whoever uses it is still told in one line
        return ended(progress, "a fault of its own: %s: %s" % (type(problem).__name__, one_line(str(problem))))
    progress.clear()
    for text in dict.fromkeys(said):
        print("tools/plan: %s: %s" % (one_line(options.plan), one_line(text, 1000)), file=sys.stderr)
    return 0


def ended(progress, text, status=2):
    """Says why there is no answer."""
    progress.clear()
    print("tools/plan: " + one_line(text, 1000), file=sys.stderr)
    return status
