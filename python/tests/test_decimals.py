"""Decimals are rounded outward, exactly. The vectors of c/tests/decimals.txt, which C and Rust are tested with too, are made here by whole numbers: python3 python/tests/test_decimals.py > FILE."""
import os
import random
import re
import struct
import unittest
from fractions import Fraction

VECTORS = os.path.join(os.path.dirname(os.path.dirname(os.path.dirname(os.path.abspath(__file__)))), "c", "tests", "decimals.txt")
EDGES = [0x00000000, 0x80000000, 0x00000001, 0x80000001, 0x007fffff, 0x807fffff, 0x00800000, 0x80800000, 0x7f7fffff, 0xff7fffff, 0x3f800000, 0xbf800000, 0x3dcccccd, 0xbdcccccd, 0x3f7fffff,
         0xbf7fffff, 0x4b7fffff, 0x4b800000, 0xcb800001, 0x4b000001, 0x30000000, 0x2f800000, 0x5f000000, 0xdf7fffff, 0x41c03d71, 0xbe930779, 0x3a83126f, 0xba83126f, 0x322bcc77]


def number(bits):
    return struct.unpack("<f", struct.pack("<I", bits))[0]


def decimal(bits, places, up):
    scaled = Fraction(number(bits)) * 10 ** places
    whole = -(-scaled // 1) if up else scaled // 1
    text = "%0*d" % (places + 1, abs(whole))
    return ("-" if whole < 0 else "") + (text[:-places] + "." + text[-places:] if places else text)


def vectors():
    rng = random.Random(45)
    floats = [bits for bits in (rng.getrandbits(32) for _ in range(240)) if bits >> 23 & 255 != 255]
    metres = [struct.unpack("<I", struct.pack("<f", rng.uniform(-50, 50)))[0] for _ in range(60)]
    for bits in EDGES + floats + metres:
        for places in [0, 3, 9] if bits in EDGES else [rng.randrange(10)]:
            yield "%08x %d %s %s" % (bits, places, decimal(bits, places, False), decimal(bits, places, True))


class Decimals(unittest.TestCase):
    def test_vectors(self):
        from jellyplain import Bounds
        with open(VECTORS, encoding="ascii") as file:
            lines = file.read().splitlines()
        self.assertEqual(lines, list(vectors()))
        for line in lines:
            bits, places, down, up = line.split()
            value = number(int(bits, 16))
            self.assertEqual(Bounds((value,) * 3, (value,) * 3).decimals(int(places)), (down,) * 3 + (up,) * 3)

    def test_never_inward(self):
        from jellyplain import Bounds
        rng = random.Random(2)
        for _ in range(3000):
            bits, places = rng.getrandbits(32), rng.randrange(12)
            if bits >> 23 & 255 == 255:
                continue
            value = number(bits)
            *_, low, _, _, high = Bounds((value,) * 3, (value,) * 3).decimals(places)
            self.assertTrue(Fraction(low) <= Fraction(value) <= Fraction(high))
            self.assertLess(Fraction(high) - Fraction(low), Fraction(2, 10 ** places))
            self.assertTrue(re.fullmatch(r"-?\d+(\.\d{%d})?" % places, low) and low.partition(".")[2] == low[len(low) - places:] * bool(places))

    def test_no_numbers(self):
        from jellyplain import Bounds
        self.assertEqual(Bounds((float("nan"), float("inf"), 0), (0, 1, float("-inf"))).decimals(0), ("nan", "inf", "0", "0", "1", "-inf"))
        with self.assertRaises(ValueError):
            Bounds((0, 0, 0), (1, 1, 1)).decimals(-1)


if __name__ == "__main__":
    print(*vectors(), sep="\n")
