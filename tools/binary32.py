"""Exact numbers and binary32: the nearest float, the nearest on one side, and decimals that are rounded outward."""
import math
import struct
from fractions import Fraction

LARGEST = Fraction(2 ** 24 - 1) * 2 ** 104
LARGEST_UNITS = (2 ** 24 - 1) << (104 + 149)        # in units of the least float


def rounded(exact, whole):
    """The binary32 that a rounding of quotients to whole numbers gives, in units of the last place; OverflowError beyond the floats."""
    over, under = exact.numerator, exact.denominator
    if over == 0:
        return 0.0
    exponent = abs(over).bit_length() - under.bit_length()
    if abs(over) << max(-exponent, 0) < under << max(exponent, 0):
        exponent -= 1
    place = max(exponent - 23, -149)
    units = whole(over << max(-place, 0), under << max(place, 0))
    if place > 104 or abs(units) << (place + 149) > LARGEST_UNITS:
        raise OverflowError("beyond the floats")
    return math.ldexp(units, place)


def floor(over, under):
    return over // under


def ceiling(over, under):
    return -(-over // under)


def half_even(over, under):
    """The nearest whole number, of two as near the even one."""
    whole, rest = divmod(over, under)
    return whole + (2 * rest > under or (2 * rest == under and whole % 2))


def nearest(exact):
    """Half to even; a zero is +0."""
    return rounded(Fraction(exact), half_even)


def down(exact):
    """The greatest float that is not above."""
    return rounded(Fraction(exact), floor)


def up(exact):
    """The least float that is not below."""
    return rounded(Fraction(exact), ceiling)


def bits(value):
    return struct.unpack("<I", struct.pack("<f", value))[0]


def thousandths(exact, above):
    """A number as whole thousandths, rounded up or down."""
    return math.ceil(exact * 1000) if above else math.floor(exact * 1000)


def decimal_text(whole):
    """So many thousandths as a decimal with three digits."""
    return "%s%d.%03d" % ("-" if whole < 0 else "", abs(whole) // 1000, abs(whole) % 1000)


def order(value):
    """A float's place among all of them, the zeros at 0, so that neighbours are one apart."""
    found = bits(value)
    return found if found < 2 ** 31 else 2 ** 31 - found


def at_order(place):
    """The float at a place; a zero is +0."""
    return struct.unpack("<f", struct.pack("<I", place if place >= 0 else 2 ** 31 - place))[0]
