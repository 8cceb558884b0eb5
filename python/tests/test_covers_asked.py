"""Files, days and rows: each question answered and refused."""
import random

from common import BOOM, CROSSED, NAN, NO_NUMBERS, TestCase, bits, bits_of, bytes_of, four_poses, random_poses
from jellyplain import Boom, Bounds, Chain, MoveFile, Pose, reached_rows, starting_ticks

SWING = bytes_of("examples/swing.txt")


def along_x(low, high):
    return Bounds((low, 0, 0), (high, 1, 1))


def words(file):
    poses = [bits(pose.time, *(entry for row in pose.matrix for entry in row), pose.pad) for pose in file.poses]
    return poses, bits_of(file.bounds)


class Files(TestCase):
    def test_read_and_written(self):
        file = MoveFile.read(SWING)
        self.assertEqual((len(file.poses), file.poses[1].time, file.poses[0].pad, file.bounds.p_max), (2, 40, 0, (24, 0.5, 2.25)))
        text = Chain(file.poses).write(file.bounds)
        self.assertTrue(text.startswith(b"time m00 m01") and b" m23 pad\n" in text)
        for data in (text, bytearray(text), memoryview(text), text.replace(b" ", b"   ")):
            self.assertEqual(words(MoveFile.read(data)), words(file))
        for poses in [random_poses(random.Random(seed), 32) for seed in range(10)]:
            again = MoveFile.read(Chain(poses).write(BOOM))
            self.assertEqual(words(again), words(MoveFile(tuple(poses), BOOM)))

    def test_refused(self):
        for data in (b"", b"\n", SWING[1:], SWING[:-1], SWING.replace(b" ", b"\t", 1), bytes(70000), bytes_of("examples/refused/line_feed.txt")):
            with self.refused(11):
                MoveFile.read(data)
        for wrong in (5, None, SWING.decode()):
            with self.assertRaises(TypeError):
                MoveFile.read(wrong)
        for number, b in [(6, NO_NUMBERS), (7, CROSSED)]:
            with self.refused(number):
                Chain(four_poses()).write(b)
        # What is read is not judged: any poses, and as many.
        with self.refused(16):
            Chain(MoveFile.read(bytes_of("examples/refused/pad.txt")).poses)
        self.assertEqual(len(MoveFile.read(bytes_of("examples/refused/one_pose.txt")).poses), 1)

    def test_signs_and_no_numbers_cross(self):
        lines = SWING.decode().splitlines()
        lines[1] = " ".join(["7f800000", "ffc00000", "80000000", *lines[1].split()[3:]])
        file = MoveFile.read(("\n".join(lines) + "\n").encode())
        pose = file.poses[0]
        self.assertTrue(pose.time == float("inf") and pose.matrix[0][0] != pose.matrix[0][0])
        self.assertEqual(bits(pose.matrix[0][1]), ["80000000"])
        self.assertEqual(pose.matrix[3], (0, 0, 0, 1))


class Days(TestCase):
    def test_booms_that_meet_wait_for_each_other(self):
        booms = [Boom(along_x(0, 2), 30), Boom(along_x(2, 4), 20), Boom(along_x(5, 6), 10)]
        self.assertEqual(starting_ticks(booms), (0, 30, 0))
        self.assertEqual(starting_ticks([Boom(along_x(0, 1), 1000)] * 8), tuple(range(0, 8000, 1000)))

    def test_refused(self):
        for number, booms in [(22, []), (22, [Boom(along_x(0, 1), 1)] * 9), (22, [Boom(NO_NUMBERS, 1), Boom(CROSSED, 0)]), (22, [Boom(along_x(0, 1), 1001)]),
                              (22, [Boom(along_x(0, 1), 2 ** 32 + 1)]), (22, [Boom(NO_NUMBERS, 1)] * 100), (7, [Boom(along_x(0, 1), 1), Boom(CROSSED, 1), Boom(NO_NUMBERS, 1)]),
                              (6, [Boom(NO_NUMBERS, 1), Boom(CROSSED, 1)])]:
            with self.refused(number):
                starting_ticks(booms)
        with self.assertRaises(ValueError):
            Boom(along_x(0, 1), -1)
        with self.assertRaises(TypeError):
            Boom(along_x(0, 1), 1.5)


class Rows(TestCase):
    def test_rows_that_touch_are_named(self):
        rows = [along_x(-1, -0.0), along_x(2.0000002, 3), along_x(0.5, 0.75), along_x(2, 2), along_x(-2, -1e-45), along_x(-1, 3)]
        self.assertEqual(reached_rows(along_x(0, 2), rows), (0, 2, 3, 5))
        many = [along_x(k, k + 0.5) for k in range(256)]
        self.assertEqual(reached_rows(along_x(100, 200), iter(many)), tuple(range(100, 201)))
        self.assertEqual(reached_rows(along_x(-2, -1), many), ())

    def test_refused(self):
        good = along_x(0, 1)
        for number, cover, rows in [(14, NO_NUMBERS, []), (14, NO_NUMBERS, [NO_NUMBERS] * 257), (6, NO_NUMBERS, [CROSSED] * 256), (7, CROSSED, [NO_NUMBERS]),
                                    (7, good, [good, CROSSED, NO_NUMBERS]), (6, good, [good, NO_NUMBERS, CROSSED])]:
            with self.refused(number):
                reached_rows(cover, rows)
        self.assertEqual(reached_rows(good, [Bounds.outward((0.1, 0, 0), (0.2, 1, 1))]), (0,))


class Poses(TestCase):
    def test_any_numbers_make_one(self):
        self.assertNotEqual(Pose(NAN, four_poses()[1].matrix), Pose(0, four_poses()[1].matrix))
