"""What the tests share: poses, boxes and bits."""
import contextlib
import math
import os
import struct
import unittest

from jellyplain import IDENTITY, Bounds, Move, Pose, Refused

ROOT = os.path.dirname(os.path.dirname(os.path.dirname(os.path.abspath(__file__))))
NAN, INFINITY = float("nan"), float("inf")
BOOM = Bounds((0, -0.5, 0), (12, 0.5, 0.25))
UNIT = Bounds((0, 0, 0), (1, 1, 1))
CROSSED, NO_NUMBERS = Bounds((1, 0, 0), (0, 1, 1)), Bounds((NAN, NAN, NAN), (1, 1, 1))
QUARTER_TURN = ((0, -1, 0, 2), (1, 0, 0, -1), (0, 0, 1, 0.5), (0, 0, 0, 1))
FLAT = ((0, 0, 0, 0), (0, 0, 0, 0), (0, 0, 0, 0), (0, 0, 0, 1))


def scaled(x):
    return ((x, 0, 0, 0), *IDENTITY[1:])


def translation(x):
    return ((1, 0, 0, x), *IDENTITY[1:])


def turn(angle, x=0.0, y=0.0, z=0.0):
    c, s = math.cos(angle), math.sin(angle)
    return ((c, -s, 0, x), (s, c, 0, y), (0, 0, 1, z), (0, 0, 0, 1))


def shift():
    return Move(Pose(0, IDENTITY), Pose(1, translation(1)))


def four_poses():
    """Out by a quarter turn, a rest, and on by a shift."""
    return [Pose(0, IDENTITY), Pose(2, QUARTER_TURN), Pose(3, QUARTER_TURN), Pose(5, translation(4))]


def random_poses(rng, count):
    time, poses = rng.uniform(-5, 5), []
    for _ in range(count):
        poses.append(Pose(time, turn(rng.uniform(-1.5, 1.5), *(rng.uniform(-9, 9) for _ in range(3))), rng.choice([0, rng.uniform(0, 2)])))
        time += rng.uniform(0.1, 3)
    return poses


def random_point(rng, b):
    """A point of 32-bit floats in a box."""
    return [min(max(single(rng.uniform(low, high)), low), high) for low, high in zip(b.p_min, b.p_max)]


def single(value):
    """The nearest float of 32 bits."""
    return struct.unpack("<f", struct.pack("<f", value))[0]


def bits(*floats):
    return [struct.pack(">f", value).hex() for value in floats]


def bits_of(b):
    return bits(*b.p_min, *b.p_max)


def bytes_of(path):
    with open(os.path.join(ROOT, path), "rb") as file:
        return file.read()


class TestCase(unittest.TestCase):
    @contextlib.contextmanager
    def refused(self, number):
        with self.assertRaises(Refused) as caught:
            yield
        self.assertEqual(caught.exception.number, number)
