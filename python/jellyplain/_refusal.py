"""Refusal numbers with their texts, and the exception that carries one."""
from __future__ import annotations

import enum
from typing import Optional


class Refusal(enum.IntEnum):
    """Why a move or a query is refused. The numbers are those that the library and the programs give; `reason` says what was refused,
    `advice` what to do.
    """

    reason: str
    advice: str

    def __new__(cls, number: int, reason: str, advice: str) -> Refusal:
        member = int.__new__(cls, number)
        member._value_ = number
        member.reason, member.advice = reason, advice
        return member

    # made by tools/numbers --write
    POSE_NOT_FINITE = 1, "a matrix entry, a time or a pad of a pose isn't finite", "set that pose again"
    BOTTOM_ROW = 2, "a bottom row of a pose's matrix isn't 0 0 0 1", "set it so; a file has no bottom rows"
    TIMES = 3, "the end time is below the start time, or their difference isn't finite", "set the times again"
    ZERO_PIVOT = 4, "a pose, or a scale on the way, flattens space: it has no inverse", "set a pose that has an inverse"
    NOT_FINITE = 5, "numbers leave the range of floats on the way", "work in larger units, nearer to the origin"
    QUERY = 6, "the time asked for is NaN, or a coordinate isn't finite", "ask again, with numbers"
    CORNERS = 7, "a least corner of a box is above its greatest corner on some axis", "give the least corner first"
    DEPTH = 8, "the depth is above 12", "ask with a depth from 0 to 12"
    NINTH_ZERO = 9, "a motion box's search finds more than eight zeros on an axis", "ask for the cover, which has no such limit"
    SQUARED_LENGTH = 10, "a cover's slices are too wide for the rotation in them", "ask with a greater depth, up to 12, or set a pose on the way"
    FILE = 11, "a file departs from its layout", "write it again; `tools/move_file` makes move files"
    CHAIN = 12, "a chain has fewer than 2 poses or more than 32, or its times don't rise strictly", "set the times again, or cut the chain in two"
    TIME_LIST = 13, "a list of times falls, or the answers lent for it aren't three places a time", "sort the times; lend as many places"
    SET = 14, "a set has no box or more than 16, a box is cut into no parts or more than 16, or a list of rows has none or more than 256", "ask with 1 to 16 boxes or parts, and 1 to 256 rows"
    ROOM = 15, "a buffer is too short for the text of a move file", "lend 126 bytes for each pose and 129 more"
    PAD = 16, "a pad is below zero", "set a pad of zero or more"
    NOT_RIGID = 17, "a pose of a rigid move or chain scales or shears", "build it as plain, or set a pose that only turns and shifts"
    DETERMINANT = 18, "a pose of a rigid move or chain mirrors: its determinant isn't above zero", "set a pose that doesn't mirror"
    PLACE = 19, "a place is beyond the last pose", "count the places from 0"
    MISMATCH = 20, "two chains to be joined differ in a bit of the pose that they share, a zero's sign too, or in their kind", "hand over both with the very same pose, at its time and with its pad"
    TICKS = 21, "a tick is NaN, there are fewer than 2 or more than 64, or they don't rise strictly", "sort the ticks, each once, or ask in parts"
    DAY = 22, "a day has no boom or more than 8, or a run length outside 1 to 1,000 ticks", "ask with 1 to 8 booms; count in longer ticks"
    # end of what tools/numbers makes


class Refused(Exception):
    """A refusal: nothing was answered, and what was lent for the answer is as it was.

    `number` is the library's, `refusal` its member of `Refusal` (None for a number that a newer library has added), `reason` and `advice`
    are its texts.
    """

    number: int
    refusal: Optional[Refusal]
    reason: str
    advice: str

    def __init__(self, number: int) -> None:
        super().__init__(int(number))
        self.number = int(number)
        self.refusal = next((refusal for refusal in Refusal if refusal == number), None)
        self.reason = self.refusal.reason if self.refusal else "a number that this version of the package does not know"
        self.advice = self.refusal.advice if self.refusal else "look it up in docs/REFUSALS.md of the library's version"

    def __str__(self) -> str:
        return "refused with %d: %s" % (self.number, self.reason)


def checked(number: int) -> None:
    """Raises `Refused` where the library answered a number."""
    if number:
        raise Refused(number)
