"""Moves: each question answered and refused, and values that can't be changed."""
import copy
import pickle
import random
import struct

from common import BOOM, CROSSED, FLAT, INFINITY, NAN, NO_NUMBERS, QUARTER_TURN, TestCase, bits, random_point, random_poses, scaled, shift, single, translation
from jellyplain import IDENTITY, Bounds, Chain, Move, Pose

ORIGIN = Bounds((0, 0, 0), (0, 0, 0))


class Building(TestCase):
    def test_refused_in_order(self):
        bottom = (*IDENTITY[:3], (1, 0, 0, 1))
        good = Pose(1, translation(1))
        for number, start, end in [
                (1, Pose(0, scaled(INFINITY)), Pose(0, bottom)), (1, Pose(NAN, IDENTITY), good), (1, Pose(0, IDENTITY, NAN), good), (1, Pose(1e39, IDENTITY), good),
                (2, Pose(2, bottom, -1), good), (16, Pose(2, IDENTITY, -1), good), (3, Pose(2, FLAT), good), (3, Pose(-3e38, IDENTITY), Pose(3e38, IDENTITY)),
                (4, Pose(0, FLAT), good), (5, Pose(0, ((1e-39, 0, 0, 0), (0, 1e-39, 0, 0), (0, 0, 1e-39, 0), (0, 0, 0, 1))), good)]:
            with self.refused(number):
                Move(start, end)

    def test_rigid(self):
        move = Move(Pose(0, IDENTITY), Pose(1, QUARTER_TURN), rigid=True)
        self.assertTrue(move.rigid)
        for number, matrix in [(17, scaled(2)), (17, scaled(0)), (18, scaled(-1))]:
            with self.refused(number):
                Move(Pose(0, IDENTITY), Pose(1, matrix), rigid=True)
        self.assertFalse(Move(Pose(0, IDENTITY), Pose(1, scaled(2))).rigid)

    def test_shapes(self):
        for matrix in [IDENTITY[:3], (*IDENTITY, (0, 0, 0, 1)), ((1, 0, 0), *IDENTITY[1:]), ()]:
            with self.assertRaises(ValueError):
                Pose(0, matrix)
        for corner in [(0, 0), (0, 0, 0, 0), ()]:
            with self.assertRaises(ValueError):
                Bounds(corner, (1, 1, 1))
            with self.assertRaises(ValueError):
                shift().point(0, corner)
            with self.assertRaises(ValueError):
                BOOM.contains(corner)
        for wrong in ["1", None, [1.0]]:
            with self.assertRaises(TypeError):
                Pose(wrong, IDENTITY)
            with self.assertRaises(TypeError):
                shift().point(wrong, (0, 0, 0))

    def test_numbers_are_rounded_at_once(self):
        pose = Pose(0.1, [[0.1, 0, 0, 1e39], *IDENTITY[1:]], -0.0)
        self.assertEqual((pose.time, pose.matrix[0]), (single(0.1), (single(0.1), 0, 0, INFINITY)))
        self.assertEqual(bits(pose.pad), ["80000000"])
        self.assertEqual(hash(pose), hash(Pose(single(0.1), pose.matrix, -0.0)))

    def test_outward(self):
        rng = random.Random(1)
        values = [0.1, -0.1, 0.0, -0.0, 1e39, -1e39, 1e-50, -1e-50, 16777217.0, 1.5, *(rng.uniform(-1, 1) * 10 ** rng.uniform(-45, 38) for _ in range(1000))]
        for value in values:
            b = Bounds.outward((value,) * 3, (value,) * 3)
            low, high = b.p_min[0], b.p_max[0]
            self.assertTrue(low <= value <= high)
            # None between: the same, or neighbours.
            ordered = [bits if bits >= 0 else -(bits & 0x7fffffff) for bits in struct.unpack("<ii", struct.pack("<ff", low, high))]
            self.assertLessEqual(ordered[1] - ordered[0], 1, value)
        self.assertTrue(all(x != x for x in Bounds.outward((NAN,) * 3, (NAN,) * 3).p_min))


class Kept(TestCase):
    def test_nothing_can_be_changed(self):
        move, chain = shift(), Chain([Pose(0, IDENTITY), Pose(1, IDENTITY)])
        for value, name in [(move, "rigid"), (move, "_moves"), (chain, "poses"), (chain, "other"), (Pose(0, IDENTITY), "time"), (BOOM, "p_min"), (move.interpolate(0), "matrix")]:
            with self.assertRaises(AttributeError):
                setattr(value, name, 0)
            with self.assertRaises(AttributeError):
                delattr(value, name)
        with self.assertRaises(TypeError):
            Move()
        with self.assertRaises(TypeError):
            BOOM.p_min[0] = 1

    def test_copies_are_built(self):
        move = Move(Pose(0, IDENTITY, 0.5), Pose(1, QUARTER_TURN), rigid=True)
        self.assertIs(copy.deepcopy(move), move)
        again = pickle.loads(pickle.dumps(move))
        self.assertEqual((again.poses, again.rigid, again.cover(BOOM)), (move.poses, True, move.cover(BOOM)))


class Questions(TestCase):
    def test_points(self):
        move = shift()
        for time, x in [(0.5, 0.5), (-INFINITY, 0), (INFINITY, 1), (1e39, 1)]:
            self.assertEqual(move.point(time, (0, 0, 0)), (x, 0, 0))
        for time, p in [(NAN, (0, 0, 0)), (0, (NAN, 0, 0)), (0, (0, INFINITY, 0))]:
            with self.refused(6):
                move.point(time, p)
        with self.refused(5):
            Move(Pose(0, scaled(3)), Pose(1, scaled(3))).point(0, (3.4e38, 0, 0))

    def test_pads(self):
        move = Move(Pose(0, IDENTITY, 1), Pose(1, translation(1), 3))
        self.assertEqual([move.pad(time) for time in (-INFINITY, 0.5, INFINITY)], [1, 2, 3])
        with self.refused(6):
            move.pad(NAN)

    def test_transforms(self):
        move = Move(Pose(3, IDENTITY), Pose(7, QUARTER_TURN))
        for k in range(17):
            time, p = 2.5 + k * 0.3125, (2, 0.25, -1)
            transform = move.interpolate(time)
            moved = [sum(entry * x for entry, x in zip(row, (*p, 1))) for row in transform.matrix]
            back = [sum(entry * x for entry, x in zip(row, moved)) for row in transform.inverse]
            for x, y in zip((*move.point(time, p), 1), moved):
                self.assertAlmostEqual(x, y, 5)
            for x, y in zip((*p, 1), back):
                self.assertAlmostEqual(x, y, 4)
        with self.refused(6):
            move.interpolate(NAN)

    def test_motion_boxes(self):
        move = Move(Pose(3, IDENTITY), Pose(7, QUARTER_TURN))
        box, corner = move.motion_bounds(BOOM), move.bound_point_motion(BOOM.p_max)
        self.assertTrue(box.bounds.contains(corner.bounds.p_min) and box.bounds.contains(corner.bounds.p_max))
        self.assertTrue(all(1 <= n <= 511 for n in corner.examined) and all(8 <= n <= 8 * 511 for n in box.examined))
        for number, b in [(6, NO_NUMBERS), (7, CROSSED)]:
            with self.refused(number):
                move.motion_bounds(b)
        with self.refused(6):
            move.bound_point_motion((NAN, 0, 0))

    def test_ninth_zero(self):
        def entry(word):
            return struct.unpack(">f", bytes.fromhex(word))[0]
        end = ((entry("3f7f20ae"), entry("bd2ea87d"), 0, entry("3ea238f7")), (entry("3dae7ac6"), entry("3f7fd34d"), 0, 0), *IDENTITY[2:])
        with self.refused(9):
            Move(Pose(0, IDENTITY), Pose(1, end)).bound_point_motion((0, entry("40edcb23"), 0))

    def test_covers(self):
        move = shift()
        self.assertEqual(move.cover(ORIGIN, 1), Bounds((0, 0, 0), (1, 0, 0)))
        for number, b, depth in [(10, ORIGIN, 0), (8, ORIGIN, 13), (8, ORIGIN, 2 ** 32 + 3), (8, ORIGIN, 2 ** 64), (6, NO_NUMBERS, 13), (7, CROSSED, 13)]:
            with self.refused(number):
                move.cover(b, depth)
        with self.assertRaises(ValueError):
            move.cover(ORIGIN, -1)
        with self.assertRaises(TypeError):
            move.cover(ORIGIN, 1.0)

    def test_guarantee_from_outside(self):
        rng = random.Random(2)
        for _ in range(20):
            move = Move(*random_poses(rng, 2), rigid=rng.random() < 0.5)
            cover = move.cover(BOOM, rng.choice([6, 9]))
            for _ in range(30):
                time, p = single(rng.uniform(move.poses[0].time - 1, move.poses[1].time + 1)), random_point(rng, BOOM)
                moved, pad = move.point(time, p), move.pad(time)
                for sign in (-1, 0, 1):
                    self.assertTrue(cover.contains([single(x + sign * pad) for x in moved]), (move.poses, move.rigid, time, p))
