"""Rows in bundles: a box round many of them is asked first, and only what is in a bundle that is met is asked further.

A row's floats lie in those of each bundle round it, so that what is found is what asking for every row finds, and a row in a bundle that isn't met is one that the library didn't name."""
from functools import cached_property
from typing import NamedTuple, Optional

import binary32
from planning.chains import outward, shifted
from planning.library import bounds, reached_rows

LARGEST = float(binary32.LARGEST)


class Bundle(NamedTuple):
    """A row by its place, or the box round two bundles; without heights it stands for all of them."""
    area: tuple
    heights: Optional[tuple]
    place: Optional[int]
    parts: tuple


def hull(spans):
    """The least of the lower ends and the greatest of the upper, on each axis."""
    half = len(spans[0]) // 2
    return tuple(min(axis) for axis in list(zip(*spans))[:half]) + tuple(max(axis) for axis in list(zip(*spans))[half:])


def bundled(rows):
    """All of some bundles in one, halved on the longer axis again and again."""
    if len(rows) == 1:
        return rows[0]
    x0, y0, x1, y1 = hull([row.area for row in rows])
    axis = 0 if x1 - x0 >= y1 - y0 else 1
    rows = sorted(rows, key=lambda row: row.area[axis])
    parts = bundled(rows[:len(rows) // 2]), bundled(rows[len(rows) // 2:])
    heights = None if any(part.heights is None for part in parts) else hull([part.heights for part in parts])
    return Bundle(hull([part.area for part in parts]), heights, None, parts)


class Rows:
    """The rows of a plan; they are bundled when they are first asked for."""

    def __init__(self, rows):
        self.rows = rows

    @cached_property
    def bundles(self):
        """Each row by itself."""
        return [Bundle(row.area, row.heights, place, ()) for place, row in enumerate(self.rows)]

    @cached_property
    def all(self):
        """The bundle of all, in a list that is empty where there is none."""
        return [bundled(self.bundles)] if self.rows else []


def local_box(row, origin):
    """A row or a bundle in the frame of an origin, exactly, and then outward to floats; without heights it goes from the least float to the greatest."""
    x0, y0, x1, y1 = row.area
    z0, z1 = row.heights or (origin[2],) * 2
    box = outward(shifted((x0, y0, z0, x1, y1, z1), origin, -1))
    return box if row.heights else [*box[:2], -LARGEST, *box[3:5], LARGEST]


class LocalRows:
    """The rows of a plan in a boom's frame."""

    def __init__(self, rows, origin):
        self.rows, self.origin, self.boxes = rows, origin, {}

    def row(self, place):
        """The floats of the row at a place."""
        return self.box(self.rows.bundles[place])

    def box(self, bundle):
        """Its floats, worked out once."""
        if id(bundle) not in self.boxes:
            self.boxes[id(bundle)] = bounds(local_box(bundle, self.origin))
        return self.boxes[id(bundle)]

    def reached(self, cover):
        """The places of the rows that a cover meets, as the library says."""
        found, asked = [], self.rows.all
        while asked:
            met = [asked[k] for k in reached_rows(bounds(cover), [self.box(bundle) for bundle in asked])]
            found += [bundle.place for bundle in met if bundle.place is not None]
            asked = [part for bundle in met for part in bundle.parts]
        return found
