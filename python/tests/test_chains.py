"""Chains: each question answered and refused, the guarantee tested from outside, and covers beside those of C."""
import ctypes
import glob
import os
import pickle
import random
import shutil
import subprocess
import tempfile
import threading
import unittest

from common import BOOM, CROSSED, INFINITY, NAN, NO_NUMBERS, ROOT, UNIT, TestCase, bits_of, bytes_of, four_poses, random_point, random_poses, scaled, single, translation
from jellyplain import IDENTITY, Bounds, Chain, Move, MoveFile, Pose, Refused
from jellyplain._library import PoseStruct, functions

C_PROGRAM = r"""
#include "jellyplain.h"
#include <stdio.h>
#include <string.h>
int main(int argc, char **argv)
{
    static uint8_t bytes[65537];
    static jellyplain_pose poses[JELLYPLAIN_FILE_POSES];
    static jellyplain_chain chain;
    float boom[6], box[6];
    for (int i = 2; i < argc; i++) {
        FILE *file = fopen(argv[i], "rb");
        jellyplain_file_read read = jellyplain_read_file(bytes, fread(bytes, 1, sizeof bytes, file), poses, boom);
        fclose(file);
        if (read.refusal || jellyplain_build_chain(argv[1][0] == 'r', poses, read.count, &chain) || jellyplain_chain_cover(&chain, boom, 8, box))
            return 1;
        for (int k = 0; k < 6; k++) {
            uint32_t word;
            memcpy(&word, &box[k], 4);
            printf("%08x%c", (unsigned)word, k < 5 ? ' ' : '\n');
        }
    }
    return 0;
}
"""


def parts(count):
    """Parts of a boom, one beside the other."""
    return [Bounds((i, -0.5, 0), (i + 1, 0.5, 0.25 * i)) for i in range(count)]


class Building(TestCase):
    def test_refused_in_order(self):
        bottom, flat = (*IDENTITY[:3], (1, 0, 0, 1)), ((0, 0, 0, 0),) * 3 + (IDENTITY[3],)
        still = [Pose(k, IDENTITY) for k in range(33)]
        self.assertEqual(len(Chain(still[:32]).moves), 31)
        for number, poses in [
                (12, []), (12, still[:1]), (12, still), (12, [still[0], still[0]]), (1, [Pose(0, bottom), Pose(0, scaled(INFINITY))]), (2, [still[0], Pose(0, bottom, -1)]),
                (16, [still[0], Pose(0, IDENTITY, -1)]), (3, [Pose(-3.1e38, flat), Pose(-3e38, IDENTITY), Pose(3e38, IDENTITY)]), (4, [Pose(0, flat), still[1]])]:
            with self.refused(number):
                Chain(poses)
        for number, matrix in [(17, scaled(2)), (18, scaled(-1))]:
            with self.refused(number):
                Chain([still[0], Pose(1, matrix)], rigid=True)

    def test_refused_runs(self):
        poses = four_poses()
        self.assertEqual(list(Chain.refused_run(poses)), [])
        poses[2] = Pose(3, IDENTITY, -1)
        self.assertEqual(Chain.refused_run(poses), range(2, 3))
        stretched = [*four_poses()[:3], Pose(5, scaled(2))]
        self.assertEqual((list(Chain.refused_run(stretched)), list(Chain.refused_run(stretched, rigid=True))), ([], [3]))
        apart = [Pose(-3e38, IDENTITY), Pose(-2.9e38, IDENTITY), Pose(3e38, IDENTITY)]
        self.assertEqual(list(Chain.refused_run(apart)), [1, 2])
        for poses in ([], four_poses()[:1], [*four_poses(), Pose(5, IDENTITY)]):
            with self.refused(12):
                Chain.refused_run(poses)

    def test_what_a_chain_holds(self):
        poses = four_poses()
        chain = Chain(iter(poses), rigid=True)
        poses.clear()
        self.assertEqual((chain.poses, chain.rigid), (tuple(four_poses()), True))
        again = pickle.loads(pickle.dumps(chain))
        self.assertEqual((again.poses, again.rigid, again.write(BOOM)), (chain.poses, True, chain.write(BOOM)))
        self.assertEqual(repr(chain), "<rigid Chain of 4 poses from 0.0 to 5.0>")


class Questions(TestCase):
    def test_points(self):
        poses, p = four_poses(), (3, 0.5, -1)
        chain, moves = Chain(poses), [Move(a, b) for a, b in zip(four_poses(), four_poses()[1:])]
        for place, times in [(0, (-INFINITY, -1, 1.25, 2)), (1, (2.0000002, 2.75, 3)), (2, (3.0000002, 5, INFINITY))]:
            for time in times:
                self.assertEqual(chain.point(time, p), moves[place].point(time, p))
                self.assertEqual(chain.moves[place].point(time, p), moves[place].point(time, p))
        with self.refused(6):
            chain.point(NAN, p)
        with self.assertRaises(ValueError):
            chain.point(0, (1, 2))

    def test_moves_outlive_their_chain(self):
        moves = [move for _ in range(50) for move in Chain(four_poses()).moves]
        self.assertEqual({move.point(1, (3, 0.5, -1)) for move in moves[::3]}, {Chain(four_poses()).point(1, (3, 0.5, -1))})

    def test_transforms(self):
        chain = Chain(four_poses())
        p = (3, 0.5, -1)
        for place, times in [(0, (-INFINITY, -1, 1.25, 2)), (1, (2.25, 3)), (2, (4, 5, INFINITY))]:
            for time in times:
                transform = chain.interpolate(time)
                self.assertEqual(transform, chain.moves[place].interpolate(time))
                moved = []
                for row in transform.matrix[:3]:
                    total = single(p[0] * row[0])
                    for product in (single(p[1] * row[1]), single(p[2] * row[2]), row[3]):
                        total = single(total + product)
                    moved.append(total)
                self.assertEqual(tuple(moved), chain.point(time, p))
        with self.refused(6):
            chain.interpolate(NAN)

    def test_what_the_library_holds(self):
        """The poses and the kind that a chain has in Python are those that the library gives back."""
        poses = four_poses()
        poses[1] = Pose(2, poses[1].matrix, 0.25)
        for rigid in (False, True):
            chain = Chain(poses, rigid=rigid)
            held = functions().moves_held(chain._moves, 3)
            self.assertEqual((held.poses, held.first, held.last, held.rigid, held.refusal), (4, 0, 5, rigid, 0))
            for place, pose in enumerate(chain.poses):
                kept = PoseStruct()
                self.assertEqual(functions().moves_pose(chain._moves, 3, place, ctypes.byref(kept)), 0)
                self.assertEqual((kept.time, tuple(kept.matrix), kept.pad), (pose.time, tuple(single(x) for row in pose.matrix for x in row), pose.pad))
            self.assertEqual(functions().moves_pose(chain._moves, 3, 4, ctypes.byref(PoseStruct())), 19)
            self.assertEqual(functions().moves_held(chain._moves, 32).refusal, 12)

    def test_pads(self):
        chain = Chain([Pose(0, IDENTITY, 1), Pose(1, translation(1), 3), Pose(2, translation(1), 2)])
        self.assertEqual([chain.pad(time) for time in (-INFINITY, 0, 0.5, 1, 1.5, INFINITY)], [1, 1, 2, 3, 3, 3])
        with self.refused(6):
            chain.pad(NAN)

    def test_covers_and_sets(self):
        chain = Chain(four_poses())
        for count, depth in [(1, 6), (7, 5), (16, 4)]:
            covers = chain.covers(parts(count), depth)
            self.assertEqual(list(covers.each), [chain.cover(b, depth) for b in parts(count)])
            low, high = zip(*[(cover.p_min, cover.p_max) for cover in covers.each])
            self.assertEqual(covers.union, Bounds(tuple(map(min, zip(*low))), tuple(map(max, zip(*high)))))
        for number, boxes, depth in [(14, [], 13), (14, parts(17), 13), (8, parts(16), 13), (7, [CROSSED, NO_NUMBERS], 6), (6, [NO_NUMBERS, CROSSED], 6)]:
            with self.refused(number):
                chain.covers(boxes, depth)
        for number, b, depth in [(6, NO_NUMBERS, 13), (7, CROSSED, 13), (8, BOOM, 13), (8, BOOM, 2 ** 32)]:
            with self.refused(number):
                chain.cover(b, depth)
        with self.refused(10):
            Chain([Pose(0, IDENTITY), Pose(1, translation(1))]).cover(BOOM, 0)
        with self.refused(5):
            Chain([Pose(0, IDENTITY, 3.4e38), Pose(1, translation(1), 3.4e38)]).cover(BOOM, 4)
        for ask in (chain.cover, lambda b, depth: chain.covers([b], depth)):
            with self.assertRaises(ValueError):
                ask(BOOM, -1)

    def test_trials(self):
        chain = Chain(four_poses())
        for place, time in [(0, -1), (1, 0.5), (2, 4), (3, 9), (1, 3), (0, NAN)]:
            pose = Pose(time, translation(7))
            changed = [pose if k == place else other for k, other in enumerate(four_poses())]
            try:
                expected = Chain(changed).cover(BOOM, 6)
            except Refused as refusal:
                with self.refused(refusal.number):
                    chain.try_pose(place, pose, BOOM, 6)
            else:
                self.assertEqual(chain.try_pose(place, pose, BOOM, 6), expected)
        for number, place, pose, b in [(19, 4, Pose(NAN, IDENTITY), NO_NUMBERS), (19, 2 ** 64 + 1, Pose(0, IDENTITY), BOOM), (12, 1, Pose(3, IDENTITY), NO_NUMBERS),
                                       (6, 1, Pose(0.5, IDENTITY), NO_NUMBERS), (8, 1, Pose(0.5, IDENTITY), BOOM)]:
            with self.refused(number):
                chain.try_pose(place, pose, b, 13)
        with self.assertRaises(ValueError):
            chain.try_pose(-1, Pose(0, IDENTITY), BOOM)

    def test_joins(self):
        poses = [Pose(k, translation(k * k % 7), k % 3) for k in range(40)]
        for place, last in [(1, 2), (30, 31), (16, 31)]:
            joined, whole = Chain(poses[:place + 1]).join(Chain(poses[place:last + 1])), Chain(poses[:last + 1])
            self.assertEqual((joined.poses, joined.write(BOOM), joined.cover(BOOM, 5)), (whole.poses, whole.write(BOOM), whole.cover(BOOM, 5)))
        first = Chain(poses[:3])
        for number, other in [(20, first), (20, Chain(poses[2:5], rigid=True)), (12, Chain(poses[2:33]))]:
            with self.refused(number):
                first.join(other)
        self.assertEqual(len(first.poses), 3)

    def test_windows(self):
        chain, other = Chain(four_poses()), Chain([Pose(0, translation(10)), Pose(5, translation(-30))])
        ticks = [k / 4 for k in range(21)]
        listed = chain.windows(other, BOOM, BOOM, ticks, 8)
        for k in range(20):
            a, b = (boom.window_cover(BOOM, ticks[k], ticks[k + 1], 8) for boom in (chain, other))
            meet = all(a.p_min[i] <= b.p_max[i] and b.p_min[i] <= a.p_max[i] for i in range(3))
            self.assertEqual(k in listed, meet)
        self.assertTrue(0 < len(listed) < 20)
        self.assertEqual(chain.windows(other, BOOM, BOOM, [-INFINITY, INFINITY]), (0,))
        for number, b, c, ticks, depth in [(21, NO_NUMBERS, BOOM, [0], 8), (21, BOOM, BOOM, [1, 0], 8), (21, BOOM, BOOM, [0, NAN], 8),
                                           (21, BOOM, BOOM, list(range(65)), 8), (21, BOOM, BOOM, [], 8),
                                           (6, NO_NUMBERS, CROSSED, [0, 1], 13), (7, BOOM, CROSSED, [0, 1], 13), (8, BOOM, BOOM, [0, 1], 13)]:
            with self.refused(number):
                chain.windows(other, b, c, ticks, depth)
        for number, b, earlier, later, depth in [(21, NO_NUMBERS, 1, 1, 13), (21, BOOM, NAN, 1, 8), (6, NO_NUMBERS, 0, 1, 13), (7, CROSSED, 0, 1, 13), (8, BOOM, 0, 1, 13)]:
            with self.refused(number):
                chain.window_cover(b, earlier, later, depth)
        for ask in (lambda: chain.window_cover(BOOM, 0, 1, -1), lambda: chain.windows(other, BOOM, BOOM, [0, 1], -1)):
            with self.assertRaises(ValueError):
                ask()


class Guarantee(TestCase):
    def test_points_less_and_plus_their_pads_are_inside(self):
        rng = random.Random(3)
        for count in (2, 3, 5, 9):
            chain = Chain(random_poses(rng, count), rigid=rng.random() < 0.5)
            start, end = chain.poses[0].time, chain.poses[-1].time
            cover, half = chain.cover(BOOM, 7), single((start + end) / 2)
            window = chain.window_cover(BOOM, start, half, 7)
            self.assertTrue(cover.contains(window.p_min) and cover.contains(window.p_max))
            times = sorted([*(pose.time for pose in chain.poses), *(single(rng.uniform(start - 1, end + 1)) for _ in range(60))])
            for p in [BOOM.p_min, BOOM.p_max, random_point(rng, BOOM)]:
                points = chain.points(times, p)
                for k, time in enumerate(times):
                    moved, pad = points[3 * k:3 * k + 3], chain.pad(time)
                    self.assertEqual(tuple(moved), chain.point(time, p))
                    for sign in (-1, 0, 1):
                        padded = [single(x + sign * pad) for x in moved]
                        self.assertTrue(cover.contains(padded), (chain.poses, chain.rigid, time, p))
                        self.assertTrue(not start <= time <= half or window.contains(padded), (chain.poses, chain.rigid, time, p))

    def test_greater_depths_lie_in_lesser(self):
        chain = Chain(random_poses(random.Random(4), 4))
        covers = [chain.cover(BOOM, depth) for depth in (6, 7, 8, 9)]
        for outer, inner in zip(covers, covers[1:]):
            self.assertTrue(outer.contains(inner.p_min) and outer.contains(inner.p_max))


class BesideOthers(TestCase):
    def test_examples_by_bits(self):
        """The boxes that the program `cover` prints for the examples."""
        found = sorted(glob.glob(os.path.join(ROOT, "examples", "*.txt")))
        self.assertGreater(len(found), 5)
        for path in found:
            file, (_, expected) = MoveFile.read(bytes_of(path)), bytes_of(path[:-4] + ".expected").decode().splitlines()
            self.assertEqual(" ".join(bits_of(Chain(file.poses).cover(file.bounds, 10))), expected, path)

    def test_covers_of_c_by_bits(self):
        compiler, library = shutil.which("cc") or shutil.which("gcc"), os.environ["JELLYPLAIN_LIBRARY"]
        if not compiler:
            raise unittest.SkipTest("there is no C compiler here")
        rng = random.Random(5)
        chains = [random_poses(rng, rng.randrange(2, 8)) for _ in range(40)]
        with tempfile.TemporaryDirectory() as folder:
            source, program = os.path.join(folder, "cover.c"), os.path.join(folder, "cover")
            with open(source, "w", encoding="ascii") as file:
                file.write(C_PROGRAM)
            subprocess.run([compiler, "-I", os.path.join(ROOT, "c"), source, library, "-Wl,-rpath," + os.path.dirname(os.path.abspath(library)), "-o", program], check=True)
            paths = []
            for k, poses in enumerate(chains):
                paths.append(os.path.join(folder, "%d.txt" % k))
                with open(paths[-1], "wb") as file:
                    file.write(Chain(poses).write(BOOM))
            for rigid in (False, True):
                environment = {**os.environ, "LD_LIBRARY_PATH": os.path.dirname(os.path.abspath(library))}
                printed = subprocess.run([program, "r" if rigid else "p", *paths], check=True, capture_output=True, text=True, env=environment).stdout
                self.assertEqual(printed.splitlines(), [" ".join(bits_of(Chain(poses, rigid=rigid).cover(BOOM, 8))) for poses in chains])


class Threads(TestCase):
    def test_several_threads_ask_one_chain(self):
        chain = Chain(four_poses())
        expected, answers = (chain.cover(BOOM, 8), chain.points([0.5, 1.5], (1, 2, 3))), []

        def ask():
            answers.extend([(chain.cover(BOOM, 8), chain.points([0.5, 1.5], (1, 2, 3))) for _ in range(5)])
        threads = [threading.Thread(target=ask) for _ in range(4)]
        for thread in threads:
            thread.start()
        for thread in threads:
            thread.join()
        self.assertEqual(answers, [expected] * 20)
        self.assertEqual(chain.cover(UNIT, 6), Chain(four_poses()).cover(UNIT, 6))
