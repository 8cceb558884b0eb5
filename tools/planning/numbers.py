"""Decimal numbers of a plan as exact fractions."""
import re
from decimal import Decimal
from fractions import Fraction

from planning.ending import bad, one_line

DECIMAL = re.compile(r"[+-]?(\d+\.?\d*|\.\d+)([eE][+-]?\d{1,4})?", re.ASCII)
MOST_CHARACTERS = 60
GREATEST, LEAST = 37, -50       # powers of ten: the floats end above 10^38, and below 10^-50 all is their zero


class Number(str):
    """A number as it is written in a file, not yet read."""


def exact(text):
    """The fraction that a decimal number is."""
    if len(text) > MOST_CHARACTERS:
        raise bad("%s: a number has at most %d characters" % (one_line(text, 20), MOST_CHARACTERS))
    if not DECIMAL.fullmatch(text):
        raise bad("'%s' is not a decimal number" % one_line(text))
    value = Decimal(text)
    if value and not LEAST <= value.adjusted() <= GREATEST:
        raise bad("%s is beyond the floats; a number is 0 or from 1e%d to 1e%d in size" % (text, LEAST, GREATEST + 1))
    return Fraction(value)


def whole(text, least, most):
    """A whole number from one to another."""
    value = exact(text)
    if value.denominator != 1 or not least <= value <= most:
        raise bad("%s is not a whole number from %d to %d" % (text, least, most))
    return int(value)


def exact_text(value):
    """All digits of a fraction that is a decimal number."""
    places = 0
    while (value * 10 ** places).denominator != 1:
        places += 1
    digits = str(abs(value * 10 ** places)).rjust(places + 1, "0")
    return ("-" if value < 0 else "") + (digits[:-places] + "." + digits[-places:] if places else digits)


def shown(value):
    """A fraction for people: its decimal digits, at most 12 behind the point."""
    text = format(Decimal(value.numerator) / Decimal(value.denominator), ".12f").rstrip("0").rstrip(".")
    return "0" if text == "-0" else text
