"""Rows by windows, and boxes in parts."""
import itertools
import random
from array import array

from common import BOOM, CROSSED, IDENTITY, INFINITY, NAN, NO_NUMBERS, UNIT, TestCase, random_point, random_poses, shift, single, translation, turn
from jellyplain import Bounds, Chain, Move, Pose, cut

ALL_TIME = (-INFINITY, INFINITY)


def along_x(low, high):
    return Bounds((low, 0, 0), (high, 1, 1))


def there_and_back():
    """Along x to 8 in 8 s, a rest of 2 s, and back; rigid, so that the slices of a shift are as wide as the shift."""
    return Chain([Pose(0, IDENTITY), Pose(8, translation(8)), Pose(10, translation(8)), Pose(18, IDENTITY)], rigid=True)


def blocks(count, step, size, height=9):
    """Blocks of some size on a grid around the origin."""
    at = [step * (k - count / 2) for k in range(count)]
    return [Bounds((x, y, -height), (x + size, y + size, height)) for y in at for x in at]


def meets(a, b):
    return all(a.p_min[i] <= b.p_max[i] and b.p_min[i] <= a.p_max[i] for i in range(3))


class Parts(TestCase):
    def test_faces(self):
        b = Bounds((0, -1, 2), (1, 3, 6))
        parts = cut(b, 4)
        self.assertEqual([part.p_min[1] for part in parts] + [parts[3].p_max[1]], [-1, 0, 1, 2, 3])
        self.assertEqual({(part.p_min[0], part.p_min[2], part.p_max[0], part.p_max[2]) for part in parts}, {(0, 2, 1, 6)})
        self.assertEqual(cut(b, 1), (b,))
        # The faces are rounded, and the last is the high end.
        rounded = cut(Bounds((-1, 0, 0), (1e-8, 0, 0)), 2)
        self.assertEqual((rounded[0].p_max[0], rounded[1].p_max[0]), (-0.5, single(1e-8)))
        huge = cut(Bounds((-3e38, 0, 0), (3e38, 0, 0)), 3)
        self.assertEqual([part.p_max[0] for part in huge], [single(3e38)] * 3)

    def test_every_point_is_in_some_part(self):
        rng = random.Random(4)
        for _ in range(200):
            corner = [rng.uniform(-9, 9) for _ in range(3)]
            b = Bounds(corner, [x + rng.choice([0, rng.uniform(0, 30)]) for x in corner])
            parts = cut(b, rng.randint(1, 16))
            self.assertTrue(all(b.contains(part.p_min) and b.contains(part.p_max) for part in parts))
            self.assertEqual((parts[0].p_min, parts[-1].p_max), (b.p_min, b.p_max))
            for _ in range(20):
                p = random_point(rng, b)
                self.assertTrue(any(part.contains(p) for part in parts))

    def test_refused(self):
        for number, b, n in [(14, NO_NUMBERS, 0), (14, NO_NUMBERS, 17), (14, UNIT, 2 ** 40), (6, NO_NUMBERS, 16), (7, CROSSED, 1)]:
            with self.refused(number):
                cut(b, n)
        with self.assertRaises(ValueError):
            cut(UNIT, -1)
        with self.assertRaises(TypeError):
            cut(UNIT, 1.5)


class RowsByWindows(TestCase):
    def test_masks(self):
        chain, boom = there_and_back(), along_x(0, 0.5)
        field = [along_x(1, 1.25), along_x(4, 4.25), along_x(8.5, 9), along_x(8.75, 9)]
        ticks = [-INFINITY, 2, 6, 9, 12, 16, INFINITY]
        self.assertEqual(chain.reach([boom], 6, ticks, field), [0b100001, 0b010010, 0b001100, 0])
        self.assertEqual(chain.reach(iter([boom]), 6, array("f", ticks), iter(field)), [0b100001, 0b010010, 0b001100, 0])
        self.assertEqual(chain.reach([boom], 6, ALL_TIME, field), [1, 1, 1, 0])
        # A move by itself stands where it ended.
        there = Move(Pose(0, IDENTITY), Pose(8, translation(8)), rigid=True)
        self.assertEqual(there.reach([boom], 6, ticks, field), [0b000001, 0b000010, 0b111100, 0])
        self.assertEqual(chain.moves[0].reach([boom], 6, ticks, field), there.reach([boom], 6, ticks, field))
        # The last of 63 windows has bit 62.
        self.assertEqual(chain.reach([boom], 1, range(64), [along_x(-9, 9)]), [2 ** 63 - 1])

    def test_parts_and_depths_name_no_more(self):
        chain = Chain([Pose(0, turn(-0.6)), Pose(10, turn(0.6))], rigid=True)
        field, ticks = blocks(16, 2, 1.5), [-INFINITY, 2, 5, 8, INFINITY]
        parts = cut(BOOM, 16)
        coarser = chain.reach([BOOM], 1, ticks, field)
        for depth in range(1, 8):
            masks = chain.reach(parts, depth, ticks, field)
            self.assertEqual([fine & ~coarse for fine, coarse in zip(masks, coarser)], [0] * 256)
            for window, (earlier, later) in enumerate(zip(ticks, ticks[1:])):
                covers = [chain.window_cover(part, earlier, later, depth) for part in parts]
                self.assertTrue(all(any(meets(cover, row) for cover in covers) for mask, row in zip(masks, field) if mask >> window & 1))
            coarser = masks
        named, by_cover = sum(mask > 0 for mask in coarser), sum(mask > 0 for mask in chain.reach([BOOM], 7, ALL_TIME, field))
        self.assertTrue(0 < named < by_cover)

    def test_rows_that_are_not_named_stay_dry(self):
        rng = random.Random(9)
        for _ in range(8):
            chain = Chain(random_poses(rng, rng.randint(2, 6)))
            field, parts = blocks(16, 4, 2.5), cut(BOOM, rng.randint(1, 16))
            times = [pose.time for pose in chain.poses]
            ticks = sorted({-INFINITY, INFINITY, *rng.sample(times, 2), single(rng.uniform(times[0], times[-1]))})
            masks = chain.reach(parts, rng.randint(3, 6), ticks, field)
            for time in times + [times[0] - 1, times[-1] + 1] + [single(rng.uniform(times[0], times[-1])) for _ in range(40)]:
                named = [k for k, (earlier, later) in enumerate(zip(ticks, ticks[1:])) if earlier <= time <= later]
                pad, moved = chain.pad(time), chain.point(time, random_point(rng, BOOM))
                wetted = Bounds([x - pad for x in moved], [x + pad for x in moved])
                for window, (mask, row) in itertools.product(named, zip(masks, field)):
                    self.assertTrue(mask >> window & 1 or not meets(wetted, row))

    def test_refused(self):
        chain, ticks, good = there_and_back(), [0, 1], along_x(0, 1)
        for number, boxes, depth, times, rows in [
                (14, [], 13, [], [NO_NUMBERS]), (14, [NO_NUMBERS] * 17, 13, [], [NO_NUMBERS]), (14, [NO_NUMBERS], 13, [], []),
                (14, [NO_NUMBERS], 13, [], [NO_NUMBERS] * 257), (21, [NO_NUMBERS], 13, [], [NO_NUMBERS] * 256), (21, [good], 13, [0], [good]),
                (21, [good], 13, [1, 1], [good]), (21, [good], 13, [0, NAN], [good]), (21, [good], 13, range(65), [good]),
                (7, [good, CROSSED, NO_NUMBERS], 13, ticks, [NO_NUMBERS]), (6, [NO_NUMBERS, CROSSED], 13, ticks, [CROSSED]),
                (6, [good], 13, ticks, [good, NO_NUMBERS, CROSSED]), (8, [good], 13, ticks, [good]), (8, [good], 2 ** 40, ticks, [good])]:
            with self.refused(number):
                chain.reach(boxes, depth, times, rows)
        with self.refused(10):
            shift().reach([good], 0, [-1, 0, 2], [good])
        with self.assertRaises(ValueError):
            chain.reach([good], -1, ticks, [good])
        self.assertEqual(chain.reach([good] * 16, 3, ticks, [good] * 256), [1] * 256)
