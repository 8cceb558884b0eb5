"""The table of refusal numbers, docs/REFUSALS.md, for the tools: `table` is its rows, `said` a refusal in words, `advised` the same and what to do."""
import re
from typing import NamedTuple

import pages

PAGE = "docs/REFUSALS.md"
UNKNOWN = "a number that is not known"
ROW = re.compile(r"\| (\d+) \| ([A-Z_]+) \| ([^|]+) \| ([^|]+) \|$", re.M)


class Refusal(NamedTuple):
    number: int
    name: str
    what: str
    advice: str


def table():
    return [Refusal(int(number), name, what, advice) for number, name, what, advice in ROW.findall(pages.read(PAGE))]


def said(number):
    """`refused 12, a chain has ..`"""
    return "refused %d, %s" % (number, next((row.what for row in table() if row.number == number), UNKNOWN))


def advised(number):
    """`refused 12: a chain has ..; set the times again ..`"""
    row = next((row for row in table() if row.number == number), Refusal(number, "", UNKNOWN, "see docs/REFUSALS.md"))
    return "refused %d: %s; %s" % (number, row.what, row.advice)
