#!/usr/bin/env python3
"""Questions on sine, cosine and arc cosine for the program `answers`, and document 01's answers to them.

    tools/angle_vectors.py              prints the questions: `sin A`, `cos A`, `acos C`, a float as eight hexadecimal digits
    tools/angle_vectors.py --answers    prints the expected line of each: `ok` and the float, a NaN as 7fc00000

An implementation of document 01, "Angles", and document 02, "Far angles", by exact fractions that shares nothing with the crates: it knows the
documents' sentences only.
"""
import random
import struct
import sys
from bisect import bisect_left
from fractions import Fraction
from functools import lru_cache
from math import factorial, floor

Q = 421657428
NAN = 0x7FC00000
TAYLOR = [Fraction((-1) ** (n // 2), factorial(n)) for n in range(1, 16, 2)]


@lru_cache(None)
def entry(i):
    x = Fraction(i * Q, 2048 * 2**28)
    total, power = Fraction(0), x
    for coefficient in TAYLOR:
        total += coefficient * power
        power *= x * x
    return floor(2**30 * total + Fraction(1, 2))


def quarter_sine(v):
    place = Fraction(v * 2048, Q)
    i = floor(place)
    if place == i:
        return entry(i)
    return floor(entry(i) + (entry(i + 1) - entry(i)) * (place - i))


def sin_units(u):
    k, v = u // Q % 4, u % Q
    return (quarter_sine(v), quarter_sine(Q - v), -quarter_sine(v), -quarter_sine(Q - v))[k]


def cos_units(u):
    return sin_units(u + Q)


def value(bits):
    """The number that a pattern stands for; None for an infinity or a NaN."""
    field, digits = bits >> 23 & 255, bits & 0x7FFFFF
    if field == 255:
        return None
    size = Fraction(digits, 2**149) if field == 0 else Fraction((2**23 + digits) * 2**field, 2**150)
    return -size if bits >> 31 else size


def nearest(x):
    """The pattern of the float nearest to x, ties to even; +0 for 0. Every x here is far below the greatest float."""
    if x == 0:
        return 0
    size, field = abs(x), 0
    while size >= Fraction(2**24 * 2**field, 2**149):
        field += 1
    scaled = size * 2**149 / 2**field
    digits = floor(scaled)
    rest = scaled - digits
    if rest > Fraction(1, 2) or rest == Fraction(1, 2) and digits % 2 == 1:
        digits += 1
    # A significand's leading digit adds one to the field, and so does a carry.
    return (field << 23) + digits | (1 << 31 if x < 0 else 0)


def sin(bits):
    a = value(bits)
    if a is None or abs(a) >= 2**24:
        return NAN
    s = sin_units(floor(abs(a) * 2**28))
    return nearest(Fraction(-s if a < 0 else s, 2**30))


def cos(bits):
    a = value(bits)
    if a is None or abs(a) >= 2**24:
        return NAN
    return nearest(Fraction(cos_units(floor(abs(a) * 2**28)), 2**30))


class Falling:
    """Minus the cosine in units of u from 0 to 2Q, as a sequence that never falls."""

    def __len__(self):
        return 2 * Q + 1

    def __getitem__(self, u):
        return -cos_units(u)


def acos(bits):
    c = value(bits)
    if c is None or abs(c) > 1:
        return NAN
    w = floor(c * 2**30)
    u = bisect_left(Falling(), -w)
    assert 0 <= u <= 2 * Q and cos_units(u) <= w and (u == 0 or cos_units(u - 1) > w)
    return nearest(Fraction(u, 2**28))


FUNCTIONS = {"sin": sin, "cos": cos, "acos": acos}


def bits_of(x):
    return struct.unpack("<I", struct.pack("<f", x))[0]


def around(bits, n):
    """A positive pattern and the n on either side, with both signs."""
    for b in range(max(bits - n, 0), min(bits + n, 0x7F800000) + 1):
        yield b
        yield b | 1 << 31


def angles(rng):
    special = [0x7F800000, 0xFF800000, NAN, 0xFFC00000, 0x7F800001, 0x7F7FFFFF, 0xFF7FFFFF]
    yield from special
    for b in (0, 0x007FFFFF, 0x00800000, 0x31800000, 0x39000000, 0x3F800000, 0x4B800000):
        yield from around(b, 3)
    # Borders of the quarters, near and far.
    for k in list(range(0, 17)) + [1000, 4095, 4096, 65535, 1000001, 2**24 * 2**28 // Q]:
        yield from around(nearest(Fraction(k * Q, 2**28)), 3)
    # Entries of the table.
    for i in rng.sample(range(2049), 60):
        yield from around(nearest(Fraction(i * Q, 2048 * 2**28)), 1)
    for _ in range(500):
        yield bits_of(rng.uniform(-7, 7))
    for _ in range(300):
        yield rng.randrange(2**32)
    for _ in range(200):
        yield rng.randrange(0x4B800000) | rng.randrange(2) << 31


def cosines(rng):
    yield from [0x7F800000, 0xFF800000, NAN, 0xFFC00000, 0x7F800001, 0x7F7FFFFF, 0xFF7FFFFF]
    for b in (0, 0x007FFFFF, 0x00800000, 0x3F000000, 0x3F3504F3, 0x3F7FDF3B):
        yield from around(b, 3)
    # Just inside and outside -1 to 1.
    yield from around(0x3F800000, 20)
    # Powers of two: about 2^-30 a c becomes less than a unit.
    for e in range(-40, 1):
        yield from around(nearest(Fraction(2) ** e), 1)
    # Cosines of the rule itself, where the least angle is a border.
    for _ in range(300):
        yield from around(abs(nearest(Fraction(abs(cos_units(rng.randrange(2 * Q + 1))), 2**30))), 0)
    for _ in range(600):
        yield bits_of(rng.uniform(-1, 1))
    for _ in range(200):
        yield rng.randrange(0x3F800001) | rng.randrange(2) << 31
    for _ in range(60):
        yield rng.randrange(2**32)


def questions():
    rng = random.Random("angles")
    for a in angles(rng):
        yield "sin", a
        yield "cos", a
    for c in cosines(rng):
        yield "acos", c


def main():
    if sys.argv[1:] not in ([], ["--answers"]):
        sys.exit(__doc__)
    for name, bits in questions():
        print("ok %08x" % FUNCTIONS[name](bits) if sys.argv[1:] else "%s %08x" % (name, bits))


main()
