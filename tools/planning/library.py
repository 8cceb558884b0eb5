"""The library, by the Python package jellyplain: where it is, boxes of six floats for it, and rows in parts that it takes."""
import os

import jellyplain
import pages
from jellyplain import Bounds
from planning.ending import bad, one_line

DEFAULT = os.path.join(pages.ROOT, "target", "lib", "libjellyplain.so.2")
TICKS, BOOMS, ROWS = 64, 8, 256         # the most of a call


def load(path):
    """Loads the library, or says what is wrong with it."""
    if not os.path.exists(path):
        raise bad("the library %s is not there: run `make` first, or name it by --library or JELLYPLAIN_LIBRARY" % one_line(path))
    # What isn't a file, as a pipe that nobody writes to, would be waited for without end.
    if not os.path.isfile(path):
        raise bad("%s can't be loaded as a shared library; run `make` again" % one_line(path))
    try:
        jellyplain.load(path)
    except (jellyplain.LibraryError, RuntimeError) as problem:
        raise bad("%s; run `make` again" % one_line(str(problem)))


def bounds(box):
    """A box of six floats for the library."""
    return Bounds(box[:3], box[3:])


def six(box):
    """A box of the library as six floats."""
    return [*box.p_min, *box.p_max]


def reached_rows(cover, rows):
    """The places of the rows that a cover meets, touching included; asked in parts of at most 256 rows."""
    return [first + place for first in range(0, len(rows), ROWS) for place in jellyplain.reached_rows(cover, rows[first:first + ROWS])]
