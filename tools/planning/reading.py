"""A plan from what a file holds, JSON or CSV: every key, kind of value and name is looked at, and what is wrong is said with its place."""
from contextlib import contextmanager
from fractions import Fraction

from planning import model
from planning.ending import Ending, bad, numbered, one_line
from planning.numbers import Number, exact, whole

MOST_NAME = 60
DEFAULT_DEPTH, MOST_DEPTH = 10, 4294967295      # a depth above 12 is the library's to refuse


@contextmanager
def at(place):
    """Says where something went wrong."""
    try:
        yield
    except Ending as ending:
        raise ending.within(place) from None


# ---- values

def kind_of(value):
    if value is None:
        return "null"
    if isinstance(value, bool):
        return "true or false"
    return {Number: "a number", str: "text", list: "a list"}.get(type(value), "an object")


def wanted(value, kind, what):
    """The value, where it is of the kind."""
    if type(value) is not kind:
        raise bad("%s is wanted here, not %s" % (what, kind_of(value)))
    return value


def number(value):
    return exact(wanted(value, Number, "a number"))


def numbers(value, *counts):
    values = wanted(value, list, "a list of numbers")
    if len(values) not in counts:
        raise bad("%s numbers are wanted here, not %d" % (" or ".join(map(str, counts)), len(values)))
    return tuple(number(n) for n in values)


def name_of(value):
    name = wanted(value, str, "a name")
    if not name.strip() or len(name) > MOST_NAME or not name.isprintable() or ";" in name:
        raise bad("'%s' is no name: it has 1 to %d characters that can be printed, and no ';'" % (one_line(name, MOST_NAME), MOST_NAME))
    return name


class Keys:
    """An object whose keys are taken one by one; those that are left are unknown."""

    def __init__(self, value, known):
        self.values = dict(wanted(value, dict, "an object"))
        unknown = [key for key in self.values if key not in known]
        if unknown:
            raise bad("unknown key '%s'; known are %s" % (one_line(unknown[0], MOST_NAME), ", ".join(known)))

    def __contains__(self, key):
        return key in self.values

    def get(self, key, read, default):
        return self.needed(key, read) if key in self else default

    def needed(self, key, read):
        if key not in self:
            raise bad("the key '%s' is missing" % key)
        with at(key):
            return read(self.values[key])

    def one_of(self, *keys):
        """The one of these keys that is there, or None."""
        there = [key for key in keys if key in self]
        if len(there) > 1:
            raise bad("only one of %s may be given" % " and ".join("'%s'" % key for key in there))
        return there[0] if there else None


def ordered(box, axes=model.AXES):
    """A box whose least corner is not above its greatest; refused with 7 as by the library, but by the decimals."""
    half = len(box) // 2
    for axis, low, high in zip(axes, box[:half], box[half:]):
        if low > high:
            raise numbered(7, "on %s: " % axis)
    return box


def above_zero(text):
    value = exact(text)
    if value <= 0:
        raise bad("a number above 0 is wanted here")
    return value


def positive(value):
    return above_zero(wanted(value, Number, "a number"))


def ticks(text):
    return whole(text, 0, 10 ** 9)


def listed(value, what, read):
    """Named things, each name once."""
    found = {}
    for i, entry in enumerate(wanted(value, list, "a list")):
        name = one_line(entry["name"], MOST_NAME) if type(entry) is dict and type(entry.get("name")) is str else None
        with at("%s '%s'" % (what, name) if name else "%s %d" % (what, i + 1)):
            thing = read(entry)
            if thing.name in found:
                raise bad("its name is there twice")
            found[thing.name] = thing
    return tuple(found.values())


# ---- booms

def rotation(value):
    keys = Keys(value, ["axis", "degrees"])
    axis = keys.needed("axis", lambda v: numbers(v, 3))
    if not any(axis):
        raise bad("the axis has no length")
    return model.AxisAngle(keys.needed("degrees", number), axis)


def matrix(value):
    rows = wanted(value, list, "a list of three rows")
    if len(rows) != 3:
        raise bad("three rows are wanted here, not %d" % len(rows))
    return model.Matrix(tuple(numbers(row, 3) for row in rows))


def pose(value, mast):
    keys = Keys(value, ["time", "at", "heading", "tilt", "rotation", "matrix", "pad"])
    given = keys.one_of("heading", "rotation", "matrix")
    if "tilt" in keys and given in ("rotation", "matrix"):
        raise bad("'tilt' goes with 'heading', not with '%s'" % given)
    if given == "rotation":
        turn = keys.needed("rotation", rotation)
    elif given == "matrix":
        turn = keys.needed("matrix", matrix)
    else:
        turn = model.Heading(keys.get("heading", number, Fraction(0)), keys.get("tilt", number, Fraction(0)))
    time, place = keys.needed("time", number), keys.get("at", lambda v: numbers(v, 3), mast)
    if place is None:
        raise bad("where does it stand? 'at' is missing here, and the boom has no 'mast'")
    return model.Pose(time, place, turn, keys.get("pad", number, Fraction(0)))


def poses(value, mast):
    found = []
    for i, entry in enumerate(wanted(value, list, "a list of poses")):
        with at("pose %d" % (i + 1)):
            found.append(pose(entry, mast))
    if not found:
        raise bad("there is no pose")
    return tuple(found)


def boxes(value):
    found = []
    for i, entry in enumerate(wanted(value, list, "a list of boxes")):
        with at("box %d" % (i + 1)):
            found.append(ordered(numbers(entry, 6)))
    return tuple(found)


def kind(value):
    if value not in ("plain", "rigid") or type(value) is not str:
        raise bad("plain or rigid is wanted here, not %s" % ("'%s'" % one_line(value, MOST_NAME) if type(value) is str else kind_of(value)))
    return value


def boom(value):
    keys = Keys(value, ["name", "kind", "mast", "box", "boxes", "poses", "run_ticks"])
    name, rigid = keys.needed("name", name_of), keys.get("kind", kind, "plain") == "rigid"
    mast = keys.get("mast", lambda v: numbers(v, 3), None)
    filled = keys.needed("boxes", boxes) if keys.one_of("box", "boxes") == "boxes" else (keys.needed("box", lambda v: ordered(numbers(v, 6))),)
    # The whole list is one key, but what is wrong in it is said of its pose.
    if "poses" not in keys:
        raise bad("the key 'poses' is missing")
    found = poses(keys.values["poses"], mast)
    return model.Boom(name, rigid, mast or found[0].at, filled, found, keys.get("run_ticks", lambda v: ticks(wanted(v, Number, "a number")), None))


# ---- rows, nets, the plan

def row(value):
    keys = Keys(value, ["name", "box"])
    name, box = keys.needed("name", name_of), keys.needed("box", lambda v: ordered(numbers(v, 4, 6)))
    if len(box) == 4:
        return model.Row(name, box, None)
    return model.Row(name, (box[0], box[1], box[3], box[4]), (box[2], box[5]))


def net(value):
    keys = Keys(value, ["name", "height", "region", "line"])
    keys.one_of("region", "line")
    return model.Net(keys.needed("name", name_of), keys.needed("height", number), keys.get("region", lambda v: ordered(numbers(v, 4)), None), keys.get("line", lambda v: numbers(v, 4), None))


def plan(value, name):
    """The plan that a file's values are; `name` is for one without a name."""
    keys = Keys(value, ["name", "depth", "tick_seconds", "window_seconds", "booms", "rows", "nets"])
    if "booms" not in keys:
        raise bad("the key 'booms' is missing")
    booms = listed(keys.values["booms"], "boom", boom)
    if not booms:
        raise bad("there is no boom in it")
    return model.Plan(
        keys.get("name", name_of, name), booms, listed(keys.values.get("rows", []), "row", row), listed(keys.values.get("nets", []), "net", net),
        keys.get("depth", lambda v: whole(wanted(v, Number, "a number"), 0, MOST_DEPTH), DEFAULT_DEPTH), keys.get("tick_seconds", positive, Fraction(1)), keys.get("window_seconds", positive, None))
