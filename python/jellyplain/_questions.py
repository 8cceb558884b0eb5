"""What is asked of covers and boxes, and of the library and the thread themselves."""
from __future__ import annotations

import ctypes
from typing import Iterable, Tuple

from ._buffers import at_most
from ._library import BOOMS, BOXES, ROWS, Box, functions
from ._refusal import checked
from ._values import Boom, Bounds, bounds_of, box_array, box_arrays


def version() -> int:
    """The version of the library that is loaded: 10000 * major + 100 * minor + patch."""
    return int(functions().version())


def starting_ticks(booms: Iterable[Boom]) -> Tuple[int, ...]:
    """The tick in which each of 1 to 8 booms starts, in their order.

    All wait from tick 0 and are taken in order; one starts where its cover meets, even by touching, no running boom's. No two that run ever
    have covers that meet, and each starts no later than the sum of the others' run lengths. Refused with 22, then with 6 and 7 of the first
    cover in order that is refused.
    """
    given, starts = tuple(booms), (ctypes.c_uint32 * BOOMS)()
    lengths = (ctypes.c_uint32 * max(len(given), BOOMS))(*[boom.ticks for boom in given])
    checked(functions().day(box_arrays([boom.cover for boom in given], BOOMS), lengths, len(given), starts))
    return tuple(starts[:len(given)])


def reached_rows(cover: Bounds, rows: Iterable[Bounds]) -> Tuple[int, ...]:
    """The places, counted from 0 and rising, of those of 1 to 256 rows that a cover meets, touching included.

    Where the cover is that of a boom's box, as `Chain.cover`, `Chain.covers` or `Move.cover` give it, a row that is not named holds no
    point of the boom at any time, less or plus its pad or anything between; where it is that of a window, at no time of the window. Refused
    with 14 for no rows or more than 256, then with 6 and 7 of the cover, then of the first row in order that is refused.
    """
    given, places = tuple(rows), (ctypes.c_uint32 * ROWS)()
    answer = functions().reached_rows(box_array(cover), box_arrays(given), len(given), places)
    checked(answer.refusal)
    return tuple(places[:answer.count])


def cut(b: Bounds, n: int) -> Tuple[Bounds, ...]:
    """A box in n parts, 1 to 16, along its longest axis, the first of equals.

    Each part lies in the box, and every point of the box is inside some part. A boom is asked about in parts so that `Chain.reach` names
    fewer rows. Refused with 14 for another number of parts, then with 6 and 7. ValueError for n below zero.
    """
    parts, count = (Box * BOXES)(), at_most(n, 32, "n")
    checked(functions().cut(box_array(b), count, parts))
    return tuple(bounds_of(part[:]) for part in parts[:count])


def thread_rounds_as_started() -> bool:
    """Whether the calling thread rounds as the guarantee asks: to nearest even, and with denormal numbers as they are.

    A module that was linked by gcc's -ffast-math may have changed that for the thread that imported it and all that were started since.
    Whether exceptions are masked is not seen here.
    """
    one, half_step, least = 1.0, 2.0 ** -53, float.fromhex("0x1p-1022")
    to_nearest = one + half_step == one and one + 3 * half_step == one + 4 * half_step and -one - half_step == -one and one - half_step / 2 == one
    return to_nearest and least / 2 != 0 and float.fromhex("0x1p-1074") * 2 != 0
