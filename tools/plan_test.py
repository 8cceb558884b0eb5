#!/usr/bin/env python3
"""Tests of tools/plan: answers, roundings, wrong input of every kind, and many damaged plans.

  plan_test.py     exit status 1 where a test fails; 0 with a line where there is nothing to test with

The library is what JELLYPLAIN_LIBRARY names, or is made from crates/api_c/out/libapi_c.a, which tools/library builds, by the C compiler, or is target/lib/libjellyplain.so.2.
"""
import contextlib
import copy
import ctypes
import io
import json
import math
import os
import random
import re
import shutil
import subprocess
import sys
import tempfile
import unittest
import unittest.mock
from fractions import Fraction

sys.path.insert(0, os.path.dirname(os.path.abspath(__file__)))
sys.dont_write_bytecode = True

import binary32
import move_files
import pages
from planning import answers, chains, command, files, groups, library, meetings, nets, numbers, outline, page, progress, reach, reading, rows, scene, source

import jellyplain                       # found by planning

PLAN = os.path.join(pages.ROOT, "examples", "plan", "orchard.json")
FOLDER = os.path.join(pages.ROOT, "examples", "plan", "orchard")
PARKED = os.path.join(pages.ROOT, "examples", "plan", "parked.json")
HUNDRED = os.path.join(pages.ROOT, "examples", "plan", "hundred.py")
PROGRAM = os.path.join(pages.ROOT, "tools", "plan")
QUESTIONS = ["covers", "nets", "rows", "schedule", "windows", "day", "draw", "page"]
SCRATCH = tempfile.mkdtemp()


def made_library():
    """The path of a library to test with, or None."""
    archive = os.path.join(pages.ROOT, "crates", "api_c", "out", "libapi_c.a")
    compiler = shutil.which("cc") or shutil.which("gcc")
    if os.environ.get("JELLYPLAIN_LIBRARY"):
        return os.environ["JELLYPLAIN_LIBRARY"]
    if compiler and os.path.exists(archive):
        made = os.path.join(SCRATCH, "libjellyplain.so.2")
        subprocess.run([compiler, "-shared", "-o", made, "-Wl,--whole-archive", archive, "-Wl,--no-whole-archive", "-lm"], check=True)
        return made
    return library.DEFAULT if os.path.exists(library.DEFAULT) else None


def bytes_of(path):
    with open(path, "rb") as file:
        return file.read()


def example():
    """The example plan as Python values."""
    return json.loads(bytes_of(PLAN))


def run(*arguments):
    """Exit status, what was written, and the lines on standard error."""
    out, said = os.path.join(SCRATCH, "out"), io.StringIO()
    with open(out, "w"):
        pass
    with contextlib.redirect_stderr(said):
        status = command.main([*arguments, "-o", out])
    with open(out, encoding="utf-8") as file:
        return status, file.read(), said.getvalue().splitlines()


def written(text, name="plan.json"):
    path = os.path.join(SCRATCH, name)
    with open(path, "wb") as file:
        file.write(text if isinstance(text, bytes) else text.encode("utf-8", "surrogatepass"))
    return path


def ask(plan, question="covers", *options):
    """Of a plan as Python values."""
    return run(question, written(json.dumps(plan)), *options)


def boom_of(**changes):
    return {"name": "a", "mast": [0, 0, 0], "box": [0, -0.5, 1, 10, 0.5, 2], "poses": [{"time": 0, "heading": 0}, {"time": 10, "heading": 60}], **changes}


def plan_of(*booms, **changes):
    return {"booms": list(booms) or [boom_of()], **changes}


def poses(*headings):
    return [{"time": 10 * i, "heading": heading} for i, heading in enumerate(headings)]


def read(path=PLAN):
    return files.read_plan(path)


def answered(path=PLAN):
    return answers.Answers(read(path))


class Numbers(unittest.TestCase):
    def test_rounded_to_both_sides(self):
        rng = random.Random(1)
        for _ in range(2000):
            exact = Fraction(rng.randrange(-10 ** 12, 10 ** 12), rng.choice([1, 7, 1000, 10 ** 20, 10 ** 48]))
            low, high, near = binary32.down(exact), binary32.up(exact), binary32.nearest(exact)
            self.assertLessEqual(Fraction(low), exact)
            self.assertGreaterEqual(Fraction(high), exact)
            self.assertIn(near, (low, high))
            for value in (low, high):
                self.assertEqual(value, ctypes.c_float(value).value)
            self.assertTrue(low == high or abs(binary32.bits(low) - binary32.bits(high)) in (1, 0x80000000), (low, high))

    def test_nearest_is_that_of_the_machine(self):
        for value in (0.1, -0.1, 1e-45, 3e-46, 16777217, 16777219, 3.4028234e38):
            self.assertEqual(binary32.nearest(Fraction(value)), ctypes.c_float(value).value)
        with self.assertRaises(OverflowError):
            binary32.nearest(Fraction(10) ** 39)

    def test_thousandths_go_outward(self):
        self.assertEqual([binary32.decimal_text(binary32.thousandths(Fraction(v), up)) for v, up in [("-0.0001", False), ("-0.0001", True), ("1.2341", True), ("1.2341", False)]],
                         ["-0.001", "0.000", "1.235", "1.234"])


class Reach(unittest.TestCase):
    """Covers, rows, nets, windows and the day of the example."""

    @classmethod
    def setUpClass(cls):
        cls.found = answered()

    def test_covers_hold_the_boom(self):
        for answer in self.found.booms:
            covers = answer.covers_in_plan(False)
            for moved in scene.places(answer, scene.pose_times(answer.boom, 17)):
                for cover, eight in zip(covers, moved):
                    for p in eight:
                        self.assertTrue(all(cover[i] - Fraction(1, 10 ** 9) <= Fraction(p[i]) <= cover[i + 3] + Fraction(1, 10 ** 9) for i in range(3)))

    def test_metres_hold_the_covers(self):
        lines = json.loads(run("covers", PLAN, "--format", "json")[1], parse_float=Fraction)["covers"]
        for answer in self.found.booms:
            line = next(line for line in lines if line["boom"] == answer.boom.name and line["of"] == "boom")
            exact = answer.covers_in_plan(False)[0]
            for i, corner in enumerate(["x0", "y0", "z0", "x1", "y1", "z1"]):
                slack = (line[corner] - exact[i]) * (-1 if i < 3 else 1)
                self.assertTrue(0 <= slack < Fraction(1, 1000), (corner, slack))

    def test_csv_folder_is_the_same_plan(self):
        for question in QUESTIONS:
            options = ["--format", "json"] if question in command.FORMATS else []
            self.assertEqual(run(question, PLAN, *options)[:2], run(question, FOLDER, *options)[:2], question)

    def test_map_tells_the_day_and_the_windows(self):
        def of_booms(question):
            features = json.loads(run(question, PLAN, "--format", "geojson")[1])["features"]
            return {f["properties"]["name"]: f["properties"] for f in features if f["properties"]["what"] == "cover"}
        day = of_booms("day")
        for line in json.loads(run("day", PLAN, "--format", "json")[1])["day"]:
            self.assertEqual({key: day[line["boom"]][key] for key in ("start_tick", "end_tick", "from", "to")}, {key: line[key] for key in ("start_tick", "end_tick", "from", "to")})
        windows = of_booms("windows")
        met = [line for line in json.loads(run("windows", PLAN, "--format", "json")[1])["windows"] if line["answer"] == "may meet"]
        self.assertTrue(met)
        for name, properties in windows.items():
            self.assertEqual(properties["may_meet"], "; ".join("%s from %.3f to %.3f s" % (line["other"] if line["boom"] == name else line["boom"], line["from"], line["to"])
                                                               for line in met if name in (line["boom"], line["other"])))
        self.assertNotIn("may_meet", day["north-west"])

    def test_rows_that_touch_are_never_missed(self):
        """A row that begins where the boom's pieces end in x, by the exact decimal, and one that begins a hundredth of a millimetre further."""
        boom = boom_of(mast=[1234567.1, -7654321.7, 3.3])
        answer = answers.Answers(reading.plan(files.json_values(json.dumps(plan_of(boom))), "p")).booms[0]
        low, high, largest = 1 << 23, binary32.order(100.0), float(binary32.LARGEST)
        while high - low > 1:       # where it is named, and where it isn't
            middle = (low + high) // 2
            row = library.bounds([binary32.at_order(middle), -largest, -largest, largest, largest, largest])
            low, high = (middle, high) if any(reach.reach(answer.spray, answer.all_parts, answer.depth, answer.ticks, [row])) else (low, middle)
        edge = Fraction(binary32.at_order(low)) + answer.origin[0]
        self.assertTrue(answer.origin[0] + 9 < edge <= answer.covers_in_plan(True)[0][3])
        text = json.dumps(plan_of(boom, rows=[{"name": "touching", "box": ["EDGE", -8e6, 2e6, 0]}, {"name": "beyond", "box": ["FURTHER", -8e6, 2e6, 0]}]))
        text = text.replace('"EDGE"', numbers.exact_text(edge)).replace('"FURTHER"', numbers.exact_text(edge + Fraction(1, 10 ** 5)))
        self.assertEqual([row["booms"] for row in json.loads(run("rows", written(text), "--format", "json")[1])["rows"]], [["a"], []])
        found = json.loads(ask(plan_of(boom), "covers", "--format", "json")[1], parse_float=Fraction)["covers"][0]
        self.assertGreaterEqual(found["x1"], answer.covers_in_plan(False)[0][3])

    def test_more_than_256_rows(self):
        rows = [{"name": "r%d" % i, "box": [0, i, 5, i + 0.5]} for i in range(-300, 300)]
        found = json.loads(ask(plan_of(rows=rows), "rows", "--format", "json")[1])["rows"]
        self.assertEqual([row["row"] for row in found if row["booms"]], ["r%d" % i for i in range(-1, 9)])

    def test_rows_with_heights(self):
        rows = [{"name": "bed", "box": [0, 0, 0, 5, 5, 0.5]}, {"name": "crown", "box": [0, 0, 0, 5, 5, 1.5]}, {"name": "any", "box": [0, 0, 5, 5]}]
        self.assertEqual([row["booms"] for row in json.loads(ask(plan_of(rows=rows), "rows", "--format", "json")[1])["rows"]], [[], ["a"], ["a"]])

    def test_origin_is_kept_near_a_carriage(self):
        poses_at = [{"time": 0, "at": [900, 0, 0]}, {"time": 9, "at": [910, 0, 0], "heading": 60}]
        made = [ask(plan_of(boom_of(mast=mast, poses=poses_at)))[1] for mast in ([0, 0, 0], [905, 0, 0])]
        self.assertEqual(made[0], made[1])

    def test_origin_is_kept_at_the_mast(self):
        near, far = [json.loads(ask(plan_of(boom_of(mast=[m, m, 0])), "covers", "--format", "json")[1], parse_float=Fraction)["covers"][0] for m in (0, 5000000)]
        self.assertEqual([far[c] - near[c] for c in ("x0", "y0", "z0", "x1", "y1", "z1")], [5000000, 5000000, 0] * 2)

    def test_nets(self):
        def answer(net, height):
            status, text, _ = ask(plan_of(nets=[{"name": "n", "height": height, **net}]), "nets", "--format", "json")
            return json.loads(text)["nets"][0]["answer"]
        self.assertEqual(answer({}, 2.1), "below")
        self.assertEqual(answer({}, 2), "NOT BELOW")
        self.assertEqual(answer({"region": [20, 20, 30, 30]}, 0), "not under it")
        self.assertEqual(answer({"line": [-5, 5, 20, 5]}, 0), "NOT BELOW")
        self.assertEqual(answer({"line": [9, 20, 20, 9]}, 0), "not under it")

    def test_each_number_is_rounded_in_its_direction(self):
        plan = reading.plan(files.json_values(json.dumps(plan_of(
            boom_of(mast=[0.3, 0.3, 0.3], box=[0.1, 0.7, 0.1, 0.7, 0.7, 0.7], poses=[{"time": 0, "pad": 0.7}, {"time": 1, "pad": 0.1}]), rows=[{"name": "r", "box": [0.1, 0.7, 0.7, 0.1, 0.7, 0.7]}]))), "p")
        answer = answers.Answers(plan).booms[0]
        row = plan.rows[0]
        exact_row = [row.area[0], row.area[1], row.heights[0], row.area[2], row.area[3], row.heights[1]]
        for exact, floats in ((plan.booms[0].boxes[0], answer.boxes[0]), ([v - Fraction(3, 10) for v in exact_row], rows.local_box(row, answer.origin))):
            self.assertTrue(all(Fraction(floats[i]) < exact[i] for i in range(3)) and all(Fraction(floats[i]) > exact[i] for i in range(3, 6)))
        for pose in plan.booms[0].poses:
            self.assertGreater(Fraction(chains.pose_floats(pose, (0, 0, 0), 0, True)[2]), pose.pad)
            self.assertEqual(chains.pose_floats(pose, (0, 0, 0), 0, False)[2], 0)

    def test_spray_is_asked_for_rows_and_not_for_nets(self):
        wet = boom_of(poses=[{"time": 0, "pad": 3}, {"time": 10, "heading": 60, "pad": 3}])
        plan = plan_of(wet, rows=[{"name": "beside", "box": [11, -3, 12, -2]}], nets=[{"name": "n", "height": 2.5}])
        self.assertEqual(json.loads(ask(plan, "rows", "--format", "json")[1])["rows"][0]["booms"], ["a"])
        self.assertEqual(json.loads(ask(plan, "nets", "--format", "json")[1])["nets"][0]["answer"], "below")
        plan["booms"] = [boom_of()]
        self.assertEqual(json.loads(ask(plan, "rows", "--format", "json")[1])["rows"][0]["booms"], [])

    def test_spray_keeps_booms_apart(self):
        wet = [boom_of(name=name, mast=[x, 0, 0], poses=[{"time": 0, "pad": 3}, {"time": 10, "heading": 10, "pad": 3}]) for name, x in (("a", 0), ("b", 13))]
        starts = [[line["start_tick"] for line in json.loads(ask(plan_of(*wet), "day", "--parked-elsewhere", "--format", "json", *options)[1])["day"]] for options in ([], ["--without-pads"])]
        self.assertEqual(starts, [[0, 10], [0, 0]])
        said = [json.loads(ask(plan_of(*wet), "windows", "--format", "json", *options)[1])["windows"][0]["answer"] for options in ([], ["--without-pads"])]
        self.assertEqual(said, ["may meet", "never meet"])

    def test_a_cover_that_touches_a_net_is_not_below(self):
        top = self.found.nets[0, 3].top
        for height, expected in ((top, "NOT BELOW"), (top + Fraction(1, 2 ** 40), "below")):
            text = damaged(lambda plan: plan["nets"].append({"name": "n", "height": "HEIGHT"})).replace('"HEIGHT"', numbers.exact_text(height))
            found = json.loads(run("nets", written(text), "--format", "json")[1])["nets"]
            self.assertEqual([line["answer"] for line in found if (line["net"], line["boom"]) == ("n", "south-east")], [expected])

    def test_line_and_rectangle(self):
        area = [Fraction(v) for v in (0, 0, 2, 1)]
        for line, expected in [((-1, -1, 3, 3), True), ((-1, 0, 0, 1), True), ((-1, 1, 1, 3), False), ((0, 1, 0, 5), True), ((3, 0, 4, 0), False), ((1, 0.5, 1, 0.5), True), ((2, 1, 5, 9), True)]:
            self.assertEqual(nets.line_in([Fraction(v) for v in line], area) is not None, expected, line)

    def test_windows(self):
        self.assertEqual({k for pair, windows in self.found.windows.items() if pair == (0, 2) for k in windows}, {1})
        self.assertEqual([pair for pair, windows in self.found.windows.items() if windows], [(0, 2)])
        whole = run("windows", PLAN, "--every", "1", "--format", "csv")[1]
        self.assertIn("north-west,south-west,may meet,8.000,", whole)

    def test_more_than_63_windows(self):
        found = json.loads(ask(plan_of(boom_of(), boom_of(name="b")), "windows", "--every", "0.075", "--format", "json")[1])["windows"]
        self.assertEqual(found, [{"boom": "a", "other": "b", "answer": "may meet", "from": 0, "to": 10}])
        self.assertEqual(ask(plan_of(boom_of(), boom_of(name="b")), "windows", "--every", "0.0099")[0], 1)

    def test_day(self):
        runs = self.found.day
        self.assertEqual([run.end - run.start for run in runs], [4, 4, 8, 12])
        self.assertGreaterEqual(runs[2].start, runs[0].end)

    def test_move_files_hold_the_poses(self):
        folder, said = os.path.join(SCRATCH, "moves"), io.StringIO()
        with contextlib.redirect_stderr(said), contextlib.redirect_stdout(io.TextIOWrapper(io.BytesIO())):
            self.assertEqual(command.main(["moves", PLAN, "-o", folder]), 0, said.getvalue())
        self.assertEqual(sorted(os.listdir(folder)), ["north-east.txt", "north-west.txt", "south-east.txt", "south-west.2.txt", "south-west.txt"])
        for answer in self.found.booms:
            values = move_files.read(bytes_of(os.path.join(folder, answer.boom.name + ".txt")))
            poses = [chains.pose_floats(pose, answer.origin, answer.own, True) for pose in answer.boom.poses]
            expected = [value for time, entries, pad in poses for value in (time, *entries[:12], pad)] + answer.boxes[0]
            self.assertEqual(values, [binary32.bits(value) for value in expected])
        program = os.path.join(pages.ROOT, "target", "bin", "cover")
        if os.path.exists(program):
            printed = subprocess.run([program], input=bytes_of(os.path.join(folder, "south-east.txt")), stdout=subprocess.PIPE, check=True).stdout.split()[6:]
            self.assertEqual([int(word, 16) for word in printed], [binary32.bits(value) for value in self.found.booms[3].spray_covers[0]])

    def test_page_stands_by_itself(self):
        text = run("page", PLAN)[1]
        self.assertEqual(re.findall("https?://[^\"' ]*", text), ["http://www.w3.org/2000/svg"])
        self.assertFalse(re.findall(r"<script[^>]*src|<link|@import|url\(|fetch|XMLHttp", text))
        plan = example()
        plan["name"] = plan["booms"][0]["name"] = "</script><b>&\"'"
        text = ask(plan, "page")[1]
        self.assertEqual(text.count("</script>"), 2)
        self.assertNotIn("<b>&", text)


class Parked(unittest.TestCase):
    """Booms that wait or are done beside those that run."""

    def facing(self, one, other, **changes):
        """Two booms whose covers meet, the second in the middle of the first's way east, each with the headings that are given."""
        boxes = {"box": [0, -0.2, 2, 12, 0.2, 2.3], "kind": "rigid", **changes}
        return plan_of(boom_of(name="a", mast=[0, 0, 0], poses=poses(*one), **boxes), boom_of(name="b", mast=[20, 0, 0], poses=poses(*other), **boxes))

    def test_done_in_the_sweep_of_another(self):
        status, text, said = run("day", PARKED)
        self.assertEqual((status, text, len(said)), (1, "", 1))
        self.assertIn("boom 'west' is done and stands at its last pose in a box of boom 'east', which runs: ticks 4 to 8, 40 s to 80 s; change that pose, or park", said[0])
        for form in ("csv", "json", "geojson"):
            self.assertEqual(run("day", PARKED, "--format", form)[:2], (1, ""))
        status, text, said = run("day", PARKED, "--parked-elsewhere", "--format", "csv")
        self.assertEqual((status, text.splitlines()[1:]), (0, ["west,1,0,4,0.000,40.000,", "east,1,4,8,40.000,80.000,"]))
        self.assertEqual(len(said), 1)
        self.assertIn("warning: boom 'west' is done and stands at its last pose in a box of boom 'east'", said[0])
        status, _, said = run("page", PARKED)
        self.assertEqual((status, len(said)), (0, 1))
        self.assertIn("warning: boom 'west' is done", said[0])

    def test_waiting_in_the_sweep_of_another(self):
        status, _, said = ask(self.facing((90, 10, 90), (179, 90)), "day")
        self.assertEqual((status, len(said)), (1, 1))
        self.assertIn("boom 'b' waits at its first pose in a box of boom 'a', which runs: ticks 0 to 20, 0 s to 20 s; change", said[0])

    def test_out_of_the_way(self):
        self.assertEqual(ask(self.facing((180, 90, 1, 90, 180), (0, 90, 179, 90, 0)), "day")[0::2], (0, []))

    def test_two_that_stand_in_each_other(self):
        """First with first, last with last, last with first: one of the two runs while the other stands there."""
        for one, other in (((0, 90), (179, 90)), ((90, 0), (90, 179)), ((90, 0), (179, 90))):
            self.assertEqual(ask(self.facing(one, other), "day")[0], 1, (one, other))

    def test_touching_counts(self):
        """One that is done ends where the way of another begins, and one float before that."""
        for x, status in ((4, 1), (4 + 2 ** -19, 0)):
            way = [{"time": 10 * k, "at": [x, y, 0]} for k, y in enumerate((9, 2, 9))]
            still = boom_of(box=[0, 0, 0, 4, 4, 4], poses=[{"time": 0}, {"time": 10}])
            self.assertEqual(ask(plan_of(still, boom_of(name="b", box=[0, 0, 0, 4, 1, 1], poses=way)), "day")[0], status, x)

    def test_spray_counts_unless_it_is_left_aside(self):
        """Both go to and fro on x; the second waits 1.5 m beyond the first's way."""
        ways = [[{"time": 10 * k, "at": [x, 0, 0], "pad": 1} for k, x in enumerate(way)] for way in ((-5, 0, -5), (5.5, 3, 5.5))]
        plan = plan_of(*[boom_of(name=name, box=[0, 0, 0, size, 1, 1], poses=way) for name, size, way in zip("ab", (4, 1), ways)])
        self.assertEqual([ask(plan, "day", *options)[0] for options in ([], ["--without-pads"])], [1, 0])

    def test_by_each_box_and_not_by_the_box_round_all(self):
        """A boom of two boxes far apart, and one that stands between them."""
        still = [{"time": 0}, {"time": 10}]
        between = [{"time": 0, "at": [5, 5, 0]}, {"time": 10, "at": [5, 5, 0]}]
        plan = plan_of({"name": "a", "mast": [0, 0, 0], "boxes": [[0, 0, 0, 1, 1, 1], [9, 9, 0, 10, 10, 1]], "poses": still}, boom_of(name="b", box=[0, 0, 0, 1, 1, 1], poses=between))
        status, text, _ = ask(plan, "day", "--format", "json")
        self.assertEqual((status, [line["start_tick"] for line in json.loads(text)["day"]]), (0, [0, 10]))

    def test_real_numbers(self):
        """Whatever a day accepts, no boom that stands is where one that runs is, by sines and cosines of the machine."""
        rng, seen = random.Random(11), {0: 0, 1: 0}
        real = RealNumbers()
        for _ in range(40):
            booms = []
            for name, x in (("a", 0), ("b", 22), ("c", 44)):
                first = rng.uniform(-180, 180)
                booms.append(boom_of(name=name, mast=[x, 0, 0], kind="rigid", box=[0, -0.4, 1.75, 18, 0.4, 2.25],
                                     poses=[{"time": 0, "heading": round(first, 2), "at": [x, 0, 0]}, {"time": 10, "heading": round(first + rng.uniform(-90, 90), 2), "at": [x, 0, 0]}]))
            status, text, _ = ask(plan_of(*booms), "day", "--format", "json")
            seen[status] += 1
            for tick in range(0, 31 if status == 0 else 0):
                runs = json.loads(text)["day"]
                moved = [list(real.points(boom, tick - run["start_tick"])) for boom, run in zip(booms, runs)]
                for i, j in ((0, 1), (0, 2), (1, 2)):
                    if any(run["start_tick"] <= tick < run["end_tick"] for run in (runs[i], runs[j])):
                        self.assertGreater(min(math.dist(p, q) for p in moved[i] for q in moved[j]), 0.01)
        self.assertGreater(min(seen.values()), 5, seen)


class Hundred(unittest.TestCase):
    """Groups of booms, bundles of rows, and a plan of 100 booms and 5,000 blocks."""

    @classmethod
    def setUpClass(cls):
        plan = json.loads(subprocess.run([sys.executable, HUNDRED], stdout=subprocess.PIPE, check=True).stdout)
        cls.path = written(json.dumps({**plan, "depth": 5}), "hundred.json")
        cls.found = answered(cls.path)

    def test_groups(self):
        self.assertEqual(groups.groups(6, {(0, 3), (3, 5), (1, 2)}), [[0, 3, 5], [1, 2], [4]])
        self.assertEqual(groups.groups(3, set()), [[0], [1], [2]])
        self.assertEqual(self.found.groups, [list(range(k, k + 4)) for k in range(0, 100, 4)])

    def test_day(self):
        status, text, said = run("day", self.path, "--format", "json")
        day = json.loads(text)["day"]
        self.assertEqual((status, len(day), len(said)), (0, 100, 1), said)
        self.assertIn("100 booms in 25 groups, a day for each: no box of one group meets a box of another", said[0])
        for i, j in self.found.meeting:
            self.assertTrue(day[i]["end_tick"] <= day[j]["start_tick"] or day[j]["end_tick"] <= day[i]["start_tick"])
        self.assertEqual([line["group"] for line in day], [k // 4 + 1 for k in range(100)])

    def test_rows_are_those_of_asking_for_each(self):
        for answer in self.found.booms[::40]:
            boxes = [library.bounds(rows.local_box(row, answer.origin)) for row in self.found.plan.rows]
            masks = reach.asked(answer.spray, answer.all_parts, answer.depth, answer.ticks, boxes)
            self.assertEqual(answer.masks, {place: mask for place, mask in enumerate(masks) if mask})
            self.assertTrue(set(answer.masks) < {place for cover in answer.spray_covers for place in library.reached_rows(library.bounds(cover), boxes)})

    def test_windows(self):
        """Only pairs whose boxes meet are asked, and those that aren't would have none."""
        self.assertEqual(len(self.found.windows), 4950)
        self.assertEqual({pair for pair, found in self.found.windows.items() if found} - self.found.meeting, set())
        for j in (4, 5, 40, 99):
            self.assertEqual(self.found.windows_of(self.found.booms[0], self.found.booms[j]), [])

    def test_groups_have_the_ticks_of_one_day(self):
        """Eight booms and fewer: the library's day of all is that of the groups."""
        rng = random.Random(12)
        for _ in range(30):
            booms = [boom_of(name="b%d" % k, mast=[rng.uniform(0, 80), rng.uniform(0, 80), 0], run_ticks=rng.randrange(10, 30)) for k in range(rng.randrange(2, 9))]
            found = answered(written(json.dumps(plan_of(*booms))))
            self.assertEqual([run.start for run in found.day], list(jellyplain.starting_ticks(jellyplain.Boom(library.bounds(box), run.end - run.start) for box, run in zip(found.whole_boxes, found.day))))

    def test_a_group_of_nine(self):
        near = [boom_of(name="b%d" % k, mast=[8 * k, 0, 0]) for k in range(9)]
        status, _, said = ask(plan_of(*near, boom_of(name="far", mast=[500, 0, 0])), "day")
        self.assertEqual((status, len(said)), (1, 1))
        self.assertIn("a group of 9 booms whose boxes meet, directly or through others, 'b0', 'b1', 'b2', 'b3', 'b4', 'b5', 'b6', 'b7', 'b8', run lengths of 10 to 10 ticks of 1 s: refused 22: ", said[0])
        apart = [boom_of(name="b%d" % k, mast=[30 * k, 0, 0]) for k in range(9)]
        self.assertEqual(ask(plan_of(*apart), "day")[0], 0)

    def test_progress_is_for_terminals(self):
        class Terminal(io.StringIO):
            def isatty(self):
                return True
        for stream, shows in ((Terminal(), True), (io.StringIO(), False)):
            shown = progress.Progress(stream)
            self.assertEqual(list(shown.counted("at once", [1, 2])), [1, 2])
            self.assertEqual(stream.getvalue(), "")
            shown.next = 0
            self.assertEqual(list(shown.counted("covers", "ab")), ["a", "b"])
            self.assertEqual("\rcovers: 1 of 2" in stream.getvalue(), shows)
            shown.clear()
            self.assertEqual(stream.getvalue().endswith("\r" + " " * 14 + "\r"), shows)


class RealNumbers(unittest.TestCase):
    """Booms that turn about their masts by sines and cosines of the machine: in the printed boxes, over rows that are named, and close to one another only in windows that are listed."""

    def some_plan(self, rng):
        base, booms = [rng.choice([0, 1200, 583000.25]), rng.choice([0, 4507721.125])], []
        for name in ("a", "b"):
            time, heading, at = rng.choice([0, 20.5]), rng.uniform(-180, 180), [round(b + rng.uniform(-20, 20), 3) for b in base]
            poses_at = []
            for k in range(rng.choice([2, 3, 4])):
                poses_at.append({"time": round(time, 2), "heading": round(heading, 3), "at": [*at, 0.2 * k]})
                time, heading = time + rng.uniform(5, 40), heading + rng.uniform(-150, 150)
            booms.append(boom_of(name=name, mast=[*at, 0], kind=rng.choice(["plain", "rigid"]), box=[0, -0.4, 1.75, 18, 0.4, 2.25], poses=poses_at))
        rows = [{"name": "r%d" % k, "box": [base[0] - 30, base[1] - 40 + 4 * k, base[0] + 10, base[1] - 39 + 4 * k]} for k in range(20)]
        return plan_of(*booms, rows=rows, window_seconds=3)

    def points(self, boom, time):
        """Places along the boom's sides and middle at a time, by real-number geometry."""
        first, *_, last = poses_of = boom["poses"]
        time = min(max(time, first["time"]), last["time"])
        a, b = next((a, b) for a, b in zip(poses_of, poses_of[1:]) if time <= b["time"])
        share = (time - a["time"]) / (b["time"] - a["time"])
        angle = math.radians(a["heading"] + (b["heading"] - a["heading"]) * share)
        for x in range(19):
            for y in (-0.4, 0, 0.4):
                yield a["at"][0] + x * math.cos(angle) - y * math.sin(angle), a["at"][1] + x * math.sin(angle) + y * math.cos(angle), 2 + a["at"][2] + (b["at"][2] - a["at"][2]) * share

    def test_some_plans(self):
        rng, met = random.Random(3), 0
        for _ in range(12):
            plan = self.some_plan(rng)
            covers, rows, windows, schedule = [json.loads(ask(plan, question, "--format", "json")[1])[question] for question in ("covers", "rows", "windows", "schedule")]
            start, end = [pick(pose["time"] for boom in plan["booms"] for pose in boom["poses"]) for pick in (min, max)]
            for time in [end * k / 60 for k in range(61)]:
                moved = [list(self.points(boom, time)) for boom in plan["booms"]]
                for boom, cover, points in zip(plan["booms"], covers, moved):
                    self.assertTrue(all(cover["x0"] <= x <= cover["x1"] and cover["y0"] <= y <= cover["y1"] and cover["z0"] <= z <= cover["z1"] for x, y, z in points))
                    for row, named in zip(plan["rows"], rows):
                        x0, y0, x1, y1 = row["box"]
                        over = any(x0 + 0.001 <= x <= x1 - 0.001 and y0 + 0.001 <= y <= y1 - 0.001 for x, y, _ in points)
                        self.assertTrue(not over or boom["name"] in named["booms"], (row, time))
                        self.assertTrue(not over or time < start or any((line["row"], line["boom"]) == (row["name"], boom["name"]) and line["from"] - 1e-9 <= time <= line["to"] + 1e-9 for line in schedule), (row, time))
                if any(math.dist(p, q) < 0.1 for p in moved[0] for q in moved[1]):
                    met += 1
                    self.assertTrue(any(w["answer"] == "may meet" and w["from"] - 0.01 <= time <= w["to"] + 0.01 for w in windows), time)
        self.assertGreater(met, 0)


class Schedule(unittest.TestCase):
    """Which rows, and when: one answer for the map, the tables, the day, the picture and the page."""

    def blocks(self, **changes):
        """A short swing and a to-and-fro over blocks, one of which starts later on the poses' clock and in the day."""
        rows_of = [{"name": "b%d-%d" % (x, y), "box": [x, y, x + 1.5, y + 1.5]} for x in range(-2, 26, 2) for y in range(-14, 14, 2)]
        booms = [boom_of(name="a", kind="rigid", poses=[{"time": 0, "heading": 30, "pad": 0.5}, {"time": 10, "heading": 45, "pad": 0.5}]),
                 boom_of(name="b", kind="rigid", mast=[20, 0, 0], poses=[{"time": 3.5, "heading": -90}, {"time": 20, "heading": -179}, {"time": 31, "heading": -90}])]
        return plan_of(*booms, rows=rows_of, **{"depth": 6, "tick_seconds": 2, **changes})

    def named(self, path, *options):
        """From each answer the pairs of row and boom that it names."""
        def asked(question, *more):
            status, text, said = run(question, path, *options, *more)
            self.assertEqual(status, 0, said)
            return text

        def records(question, *more):
            return json.loads(asked(question, "--format", "json", *more))[question]

        def texts(value):
            return [part for part in value.split("; ") if part]
        found = {"rows": {(line["row"], boom) for line in records("rows") for boom in line["booms"]},
                 "schedule": {(line["row"], line["boom"]) for line in records("schedule")},
                 "schedule --day": {(line["row"], line["boom"]) for line in records("schedule", "--day", "--parked-elsewhere")},
                 "day": {(row, line["boom"]) for line in records("day", "--parked-elsewhere") for row in line["rows"]}}
        for question, more in (("rows", []), ("schedule", ["--day", "--parked-elsewhere"]), ("day", ["--parked-elsewhere"])):
            of = [f["properties"] for f in json.loads(asked(question, "--format", "geojson", *more))["features"]]
            found[question + " on the map"] = {(f["name"], boom) for f in of if f["what"] == "row" for boom in texts(f["booms"])}
            found[question + " of covers"] = {(row, f["name"]) for f in of if f["what"] == "cover" for row in texts(f["rows"])}
            if question == "schedule":
                found["schedule on the map"] = {(f["name"], f["boom"]) for f in of if f["what"] == "schedule"}
        text = asked("page")
        data = json.loads(re.search('id="data">(.*?)</script>', text, re.S)[1])
        for clock, of in data["clocks"].items():
            found["bars, " + clock] = {(data["rows"][row], data["booms"][boom]["name"]) for row, boom, _, _ in of["bars"]}
        found["page"] = {(data["rows"][row], boom["name"]) for boom in data["booms"] for window in boom["rows"] for row in window}
        drawn = {name: {data["rows"][int(row)] for row in re.findall('data-row="([0-9]+)" fill="%s"' % scene.REACHED, picture)} for name, picture in (("draw", asked("draw")), ("page", text))}
        return found, drawn

    def test_all_name_the_same_rows(self):
        plans = [(PLAN, []), (PLAN, ["--every", "7", "--depth", "6"]), (PLAN, ["--every", "200", "--depth", "6"]), (written(json.dumps(self.blocks()), "blocks.json"), []), (written(json.dumps(self.blocks(window_seconds=0.3)), "short.json"), [])]
        for path, options in plans:
            found, drawn = self.named(path, *options)
            self.assertTrue(found["rows"])
            for name, pairs in found.items():
                self.assertEqual(pairs, found["rows"], (path, name))
            for name, rows_of in drawn.items():
                self.assertEqual(rows_of, {row for row, _ in found["rows"]}, (path, name))

    def test_a_row_is_shown_when_it_is_in_the_schedule(self):
        """On both clocks the rows of the page's windows are those whose bars go over the slider's time."""
        data = json.loads(re.search('id="data">(.*?)</script>', ask(self.blocks(), "page")[1], re.S)[1])
        for kind, clock in data["clocks"].items():
            for k, time in enumerate(map(Fraction, clock["times"])):
                for i, boom in enumerate(data["booms"]):
                    own = clock["booms"][i]
                    if kind == "poses" or own["states"][k] == 1:
                        shown = {row for w in own["windows"][k] for row in boom["rows"][w]}
                        self.assertEqual(shown, {row for row, b, start, end in clock["bars"] if b == i and start - 1e-3 <= time <= end + 1e-3}, (kind, time))

    def test_a_picture_of_one_time(self):
        """The rows of that time's windows, on the poses' clock, as the schedule has them."""
        plan = self.blocks()
        schedule = json.loads(ask(plan, "schedule", "--format", "json")[1])["schedule"]
        for time in ("0", "4", "17.25", "31"):
            picture = ask(plan, "draw", "--at", time)[1]
            now = {plan["rows"][int(row)]["name"] for row in re.findall('data-row="([0-9]+)" fill="%s"' % scene.NOW, picture)}
            self.assertEqual(now, {line["row"] for line in schedule if line["from"] <= float(time) <= line["to"]}, time)
            self.assertIn("boom at %s s" % time, picture)
        self.assertEqual([ask(plan, "draw", "--at", "x")[0], ask(plan, "draw", "--at", "3", "--end-box")[0]], [2, 2])

    def test_times_of_a_boom_that_slides(self):
        """A metre a second along x: rows of 2 m, each 10 m from the next, in windows of 5 s; before its first pose and after its last it stands."""
        slide = boom_of(box=[0, 0, 0, 1, 1, 1], kind="rigid", poses=[{"time": 100, "at": [0, 0, 0]}, {"time": 140, "at": [40, 0, 0]}])
        still = boom_of(name="z", mast=[0, 500, 0], poses=[{"time": 50}, {"time": 150}])
        plan = plan_of(slide, still, rows=[{"name": "r%d" % x, "box": [x, 0, x + 2, 1]} for x in (-1, 4, 12, 27, 35, 39, 60)], window_seconds=5)
        found = [(line["row"], line["boom"], line["from"], line["to"]) for line in json.loads(ask(plan, "schedule", "--format", "json")[1])["schedule"]]
        self.assertEqual(found, [("r-1", "a", 50, 105), ("r4", "a", 100, 110), ("r12", "a", 110, 115), ("r27", "a", 125, 130), ("r35", "a", 130, 140), ("r39", "a", 135, 150)])
        of_day = json.loads(ask(plan, "schedule", "--day", "--format", "json")[1])
        self.assertEqual(of_day["clock"], "day")
        self.assertEqual([(line["row"], line["from"], line["to"]) for line in of_day["schedule"]], [("r-1", 0, 5), ("r4", 0, 10), ("r12", 10, 15), ("r27", 25, 30), ("r35", 30, 40), ("r39", 35, 40)])
        self.assertIn("row,boom,from,to\nr-1,a,50.000,105.000\n", ask(plan, "schedule", "--format", "csv")[1])
        self.assertEqual(ask(plan_of(boom_of()), "schedule")[1], "no boom may reach a row\n")

    def test_day_is_refused_as_by_day(self):
        self.assertEqual([run("schedule", PARKED)[0], run("schedule", PARKED, "--day")[0], run("schedule", PARKED, "--day", "--parked-elsewhere")[0]], [0, 1, 0])

    def test_spray(self):
        """A row half a metre beyond a boom that stands: between equal poses the larger pad counts, at 30 s too, and a tick belongs to both windows."""
        wet = boom_of(box=[0, 0, 0, 10, 1, 1], kind="rigid", poses=[{"time": 10 * k, "pad": pad} for k, pad in enumerate((0, 0, 2, 0, 0))])
        found = json.loads(ask(plan_of(wet, rows=[{"name": "r", "box": [10.5, 0, 12, 1]}], window_seconds=1), "schedule", "--format", "json")[1])["schedule"]
        self.assertEqual([(line["from"], line["to"]) for line in found], [(10, 31)])

    def test_parts(self):
        self.assertEqual(reach.shares([[0, 0, 0, 18, 1, 1]]), [16])
        self.assertEqual(reach.shares([[0, 0, 0, 20, 1, 1], [19, 0, 0, 19.2, 0.2, 0.85]]), [15, 1])
        self.assertEqual(reach.shares([[0, 0, 0, 8, 1, 1], [0, 0, 0, 1, 8, 1], [0, 0, 0, 1, 1, 1]]), [8, 7, 1])
        self.assertEqual(reach.shares([[0] * 6] * 16), [1] * 16)
        self.assertEqual(sum(reach.shares([[0] * 6] * 3)), 16)
        self.assertEqual([len(parts) for parts in answered().booms[2].parts], [15, 1])

    def test_calls_of_many_windows_and_rows(self):
        """More than 63 windows and 256 rows, and the low depth first: what is asked window by window and row by row."""
        plan = self.blocks(window_seconds=0.125, depth=5)
        plan["rows"] = [{"name": "r%d" % k, "box": [x / 2, y, x / 2 + 0.4, y + 0.5]} for k, (x, y) in enumerate((x, y) for x in range(0, 24) for y in range(13))]
        found = answered(written(json.dumps(plan)))
        self.assertEqual((len(found.booms[0].ticks), len(found.booms[1].ticks), len(plan["rows"])), (83, 223, 312))
        for answer in found.booms:
            boxes = [library.bounds(rows.local_box(row, answer.origin)) for row in found.plan.rows]
            for w in (0, 1, 40, 62, 63, 64, 79, len(answer.ticks) - 2):
                masks = [answer.spray.reach(answer.all_parts, 5, answer.ticks[w:w + 2], boxes[k:k + 1])[0] for k in range(0, 312, 5)]
                self.assertEqual([answer.masks.get(k, 0) >> w & 1 for k in range(0, 312, 5)], masks, w)

    def test_a_low_depth_that_is_refused(self):
        class Refusing:
            def reach(self, parts, depth, ticks, rows_of):
                if depth < 7:
                    raise jellyplain.Refused(10)
                return [1] * len(rows_of)
        self.assertEqual(reach.reach(Refusing(), [], 8, [0, 1], [0, 0]), [1, 1])
        for depth in (6, 4):
            with self.assertRaises(jellyplain.Refused):
                reach.reach(Refusing(), [], depth, [0, 1], [0])

    def test_fewer_rows_than_by_the_cover(self):
        found = answered(written(json.dumps(self.blocks())))
        named, met = [sum(counts) for counts in zip(*[(len(answer.rows), len(answer.reached(answer.spray_covers))) for answer in found.booms])]
        self.assertLess(named, 0.9 * met)

    def test_windows_of_a_long_swing(self):
        """Ticks of a boom's windows that are one float are one."""
        long = plan_of(boom_of(poses=[{"time": 0}, {"time": 1000000000.5, "heading": 9}]), rows=[{"name": "r", "box": [0, 0, 5, 5]}])
        found = json.loads(ask(long, "schedule", "--every", "1e9", "--format", "json")[1])["schedule"]
        self.assertEqual([(line["from"], line["to"]) for line in found], [(0, 1000000000.5)])

    def test_windows_that_are_refused(self):
        for question in ("rows", "schedule", "day", "draw", "page"):
            status, _, said = ask(plan_of(rows=[{"name": "r", "box": [0, 0, 5, 5]}]), question, "--every", "0.0099")
            self.assertEqual((status, len(said)), (1, 1))
            self.assertIn("windows of 0.0099 s: more than 1000", said[0])


class NetsOfPieces(unittest.TestCase):
    """How high a boom comes under a net, by its parts and slices."""

    def top(self, net, **changes):
        plan = reading.plan(files.json_values(json.dumps(plan_of(boom_of(**changes), nets=[{"name": "n", "height": 9, **net}]))), "p")
        found = answers.Answers(plan)
        return found.booms[0], found.nets[0, 0].top

    def test_greatest_height_that_is_named(self):
        """A boom whose far end is raised on the way: lower under a net near its mast than under one that is everywhere."""
        raised = {"kind": "rigid", "poses": [{"time": 0, "tilt": 0}, {"time": 9, "tilt": 20, "heading": 40}]}
        tops = {}
        for name, net, area in (("everywhere", {}, [-1e30, -1e30, 1e30, 1e30]), ("near", {"region": [1, -1, 2, 3]}, [1, -1, 2, 3]), ("wire", {"line": [3, -5, 3, 9]}, [3, -5, 3, 9])):
            answer, top = self.top(net, **raised)
            place = binary32.order(float(top))
            self.assertEqual(Fraction(float(top)), top)
            boxes = [library.bounds([*area[:2], binary32.at_order(place + k), *area[2:], 1e30]) for k in (0, 1)]
            self.assertEqual(answer.bare.reach(answer.all_parts, answer.depth, reach.ALL_TIME, boxes), [1, 0], name)
            tops[name] = top
        self.assertTrue(tops["near"] < tops["wire"] < tops["everywhere"])
        self.assertLess(tops["near"], 3.5)
        self.assertGreater(tops["everywhere"], 5)

    def test_a_line_that_goes_aslant(self):
        """By real numbers a wire past the swing's corner, which the cover touches, and one through it."""
        swing = {"kind": "rigid", "poses": poses(0, 90)}
        answer, top = self.top({"line": [8, 12, 12, 8]}, **swing)
        self.assertTrue(any(nets.line_in([Fraction(v) for v in (9, 11, 11, 9)], [box[0], box[1], box[3], box[4]]) for box in answer.covers_in_plan(False)))
        self.assertIsNone(top)
        self.assertEqual(self.top({"line": [-3, 12, 12, -3]}, **swing)[1], 2)
        self.assertIsNone(self.top({"line": [30, 0, 0, 30]}, **swing)[1])

    def test_orders_of_floats(self):
        for value in (0.0, 1.0, -1.0, 2.0 ** -149, -2.0 ** -149, 3.4028234663852886e38, -2.5):
            self.assertEqual(binary32.at_order(binary32.order(value)), value)
        self.assertEqual([binary32.at_order(k) for k in (-1, 0, 1)], [-2.0 ** -149, 0.0, 2.0 ** -149])


class Outlines(unittest.TestCase):
    """What is drawn of a boom's pieces."""

    def test_edges_of_a_union(self):
        self.assertEqual(outline.union_edges([(0, 0, 4, 4)]), ([(0, 0, 4), (4, 0, 4)], [(0, 0, 4), (4, 0, 4)]))
        upright, level = outline.union_edges([(0, 0, 4, 4), (2, 2, 6, 6)])
        self.assertEqual(sorted(upright), [(0, 0, 4), (2, 4, 6), (4, 0, 2), (6, 2, 6)])
        self.assertEqual(sorted(level), [(0, 0, 4), (2, 4, 6), (4, 0, 2), (6, 2, 6)])

    def test_the_boxes_hold_the_boom(self):
        for answer in answered().booms:
            boxes = outline.window_boxes(answer)
            union = [pick(box[i] for box in boxes) for pick, i in ((min, 0), (min, 1), (min, 2), (max, 3), (max, 4), (max, 5))]
            cover = [float(v) for v in answer.union_in_plan(True)]
            self.assertTrue(all(abs(a - b) < 0.3 for a, b in zip(union, cover)), (union, cover))
            for moved in scene.places(answer, scene.pose_times(answer.boom, 29)):
                for p in (p for eight in moved for p in eight):
                    self.assertTrue(any(all(box[i] - 1e-6 <= p[i] <= box[i + 3] + 1e-6 for i in range(3)) for box in boxes))


class Slips(unittest.TestCase):
    """Numbers that are likely wrong get a warning with the answer, and no plan is refused for them."""

    def said(self, plan, question="covers"):
        status, text, said = ask(plan, question)
        self.assertEqual(status, 0, said)
        self.assertTrue(text)
        return [line.split(": warning: ", 1)[1] for line in said]

    def test_none_in_the_examples(self):
        for question in QUESTIONS:
            self.assertFalse([line for line in run(question, PLAN)[2] if "power line" not in line])

    def test_a_boom_far_away(self):
        near = [boom_of(name=name, mast=[x, 0, 0]) for name, x in (("a", 0), ("b", 70))]
        self.assertEqual(self.said(plan_of(*near, boom_of(name="c", mast=[7000, 0, 0]))), [])
        self.assertEqual(self.said(plan_of(*near, boom_of(name="c", mast=[12154, 0, 0]))),
                         ["boom 'c': it stands 12119 m from the others, more than 100 times the 70 m that these stand apart or reach; is a decimal point missing?"])
        self.assertEqual(len(self.said(plan_of(near[0], boom_of(name="b", mast=[0, 1100, 0])))), 1)
        self.assertEqual(self.said(plan_of(near[0], boom_of(name="b", mast=[0, 900, 0]))), [])

    def test_a_fast_tip(self):
        """A boom of 10 m by 60 degrees goes 10.5 m."""
        def turned(seconds):
            return plan_of(boom_of(poses=[{"time": 0, "heading": 0}, {"time": 30, "heading": 0}, {"time": 30 + seconds, "heading": 60}]))
        self.assertEqual(self.said(turned(2.2)), [])
        found = self.said(turned(2))
        self.assertEqual(len(found), 1)
        self.assertRegex(found[0], r"^boom 'a': poses 2 and 3: its far end moves at 5\.2\d* m/s, faster than 5 m/s; is a time or a turn wrong\?$")
        slid = plan_of(boom_of(poses=[{"time": 0, "at": [0, 0, 0]}, {"time": 10, "at": [60, 0, 0]}]))
        self.assertIn("its far end moves at 6 m/s", self.said(slid)[0])

    def test_a_swing_of_no_time(self):
        self.assertEqual(self.said(plan_of(boom_of(poses=[{"time": 5}, {"time": 5.25, "heading": 1}]))), ["boom 'a': its swing takes 0.25 s, from its first pose to its last; are its times in seconds?"])

    def test_rows_below_the_spray(self):
        beds = [{"name": "bed", "box": [0, 0, 0, 5, 5, 0.25]}, {"name": "crown", "box": [0, 0, 0, 5, 5, 1.5]}, {"name": "any", "box": [0, 0, 5, 5]}, {"name": "beside", "box": [50, 0, 0, 55, 5, 0.25]},
                {"name": "above", "box": [0, 0, 7, 5, 5, 8]}]
        wet = boom_of(poses=[{"time": 0, "pad": 0.5}, {"time": 10, "heading": 60, "pad": 0.5}])
        for question in ("rows", "day", "draw", "page"):
            found = self.said(plan_of(wet, rows=beds), question)
            self.assertEqual(len(found), 1, found)
            self.assertIn("boom 'a': it passes over row 'bed', not reached by heights: 'bed' ends at 0.25 m, and above it the boom and its spray begin at 0.499 m; water falls", found[0])
        self.assertEqual(self.said(plan_of(wet, rows=beds)), [])
        many = self.said(plan_of(wet, rows=[{**beds[0], "name": "bed %d" % k} for k in range(9)]), "rows")
        self.assertIn("it passes over rows 'bed 0', 'bed 1', 'bed 2' and 6 more, not reached", many[0])
        self.assertEqual(self.said(plan_of(wet, rows=beds[1:]), "rows"), [])


class Turns(unittest.TestCase):
    def test_half_turn_is_refused_and_split(self):
        for heading in (180, 200, -180, 360, 720, 179.95):
            status, _, said = ask(plan_of(boom_of(poses=poses(0, heading))))
            self.assertEqual((status, len(said)), (1, 1))
            self.assertIn("poses 1 and 2: a turn of", said[0])
            status, text, said = ask(plan_of(boom_of(poses=poses(0, heading))), "covers", "--split", "--format", "json")
            self.assertEqual(status, 0, said)
            self.assertIn("is split by", said[0])
            self.assertLessEqual(json.loads(text)["covers"][0]["x0"], -10)
        self.assertEqual(ask(plan_of(boom_of(poses=poses(0, 179.8))))[0], 0)

    def test_too_many_parts_of_a_turn(self):
        status, _, said = ask(plan_of(boom_of(poses=poses(0, 1e30))), "covers", "--split")
        self.assertEqual((status, len(said)), (1, 1))
        self.assertIn("a chain has at most 32 poses", said[0])

    def test_half_turn_of_matrices_has_no_way(self):
        turned = [{"time": 0, "matrix": [[1, 0, 0], [0, 1, 0], [0, 0, 1]]}, {"time": 1, "matrix": [[-1, 0, 0], [0, -1, 0], [0, 0, 1]]}]
        for options in ([], ["--split"]):
            status, _, said = ask(plan_of(boom_of(poses=turned)), "covers", *options)
            self.assertEqual((status, len(said)), (1, 1))

    def test_one_turn_in_three_spellings(self):
        for kind in ("plain", "rigid"):
            spelled = [[{"time": 0}, {"time": 9, **turn}] for turn in ({"heading": 90}, {"rotation": {"axis": [0, 0, 2], "degrees": 90}}, {"matrix": [[0, -1, 0], [1, 0, 0], [0, 0, 1]]})]
            made = {ask(plan_of(boom_of(kind=kind, poses=p)))[1] for p in spelled}
            self.assertEqual(len(made), 1, made)

    def test_tilt_raises_the_far_end(self):
        text = ask(plan_of(boom_of(box=[0, 0, 0, 10, 0, 0], poses=[{"time": 0, "tilt": 30}, {"time": 1, "tilt": 30, "heading": 1}])), "covers", "--format", "json")[1]
        self.assertAlmostEqual(json.loads(text)["covers"][0]["z1"], 5, delta=0.05)


class Times(unittest.TestCase):
    def test_times_that_collapse(self):
        late = [{"time": 100000.001, "heading": 0}, {"time": 100000.002, "heading": 10}]
        self.assertEqual([ask(plan_of(boom_of(poses=late)))[0], "one float" in str(ask(plan_of(boom_of(poses=late)))[2])], [0, False])
        both = plan_of(boom_of(), boom_of(name="b", poses=late))
        status, _, said = ask(both)
        self.assertEqual((status, sum("one float" in line for line in said)), (0, 1))
        self.assertIn("warning: boom 'b': poses 1 and 2: the times 100000.001 and 100000.002 are one float, 100000, on a clock that starts at 0", said[0])
        status, _, said = ask(both, "windows")
        self.assertEqual((status, len(said)), (1, 1))
        self.assertIn("refused 12: ", said[0])
        status, _, said = ask(plan_of(boom_of(poses=[{"time": 0}, {"time": 100000.001}, {"time": 100000.002}])))
        self.assertEqual((status, len(said)), (1, 1))
        self.assertIn("poses 2 and 3: the times 100000.001 and 100000.002 are one float", said[0])

    def test_ticks_that_collapse(self):
        status, _, said = ask(plan_of(boom_of(poses=[{"time": 0}, {"time": 1e9}]), boom_of(name="b", poses=[{"time": 0}, {"time": 10}])), "windows", "--every", "10000000")
        self.assertEqual((status, len(said)), (0, 0))
        status, _, said = ask(plan_of(boom_of(poses=[{"time": 0}, {"time": 1e9}, {"time": 1000000000.5}]), boom_of(name="b")), "windows")
        self.assertEqual((status, len(said)), (1, 1))


def damaged(change):
    """The example with one change, as Python values."""
    plan = example()
    change(plan)
    return json.dumps(plan)


def put(*path):
    """Sets the value at a path, the last of the arguments, or deletes where that is `delete`."""
    *front, key, value = path

    def change(plan):
        place = plan
        for step in front:
            place = place[step]
        if value == "delete":
            del place[key]
        else:
            place[key] = value
    return change


class WrongPlans(unittest.TestCase):
    """What is wrong gets one line, with its place, and its exit status."""
    CASES = [
        ("", 2, "it is not JSON"), ("{", 2, "it is not JSON"), ("[1, 2]", 2, "an object is wanted here, not a list"), ("null", 2, "not null"), ("{}", 2, "the key 'booms' is missing"),
        ('{"booms": []}', 2, "there is no boom in it"), ('{"booms": 3}', 2, "a list is wanted here, not a number"), ("[" * 100000, 2, "lists within lists"),
        ('{"booms": [], "booms": []}', 2, "the key 'booms' is there twice"), (b"\xff\xfe{}", 2, "it is not UTF-8"), ('{"a\\nb": 1}', 2, "unknown key 'a?b'"),
        ('{"booms": [{"name": "\\ud800"}]}', 2, "is no name"),
        (damaged(put("boms", [])), 2, "unknown key 'boms'; known are name"),
        (damaged(put("booms", 0, "poses", 1, "tme", 3)), 2, "boom 'north-west': pose 2: unknown key 'tme'"),
        (damaged(put("booms", 0, "poses", 1, "time", "delete")), 2, "boom 'north-west': pose 2: the key 'time' is missing"),
        (damaged(put("booms", 0, "poses", 1, "time", "40")), 2, "pose 2: time: a number is wanted here, not text"),
        (damaged(put("booms", 0, "poses", 1, "time", None)), 2, "not null"), (damaged(put("booms", 0, "poses", 1, "time", True)), 2, "not true or false"),
        (damaged(put("booms", 0, "poses", 1, "time", float("nan"))), 2, "'NaN' is not a decimal number"),
        (damaged(put("booms", 0, "poses", 1, "time", float("inf"))), 2, "'Infinity' is not"),
        (damaged(put("booms", 0, "poses", 1, "time", 1)).replace('"time": 1,', '"time": 1e400,'), 2, "1e400 is beyond the floats"),
        (damaged(put("booms", 0, "poses", 1, "time", 1)).replace('"time": 1,', '"time": 1e999999999,'), 2, "is not a decimal number"),
        (damaged(put("booms", 0, "poses", 1, "time", 1)).replace('"time": 1,', '"time": 1%s,' % ("0" * 5000)), 2, "at most 60 characters"),
        (damaged(put("booms", 0, "poses", 1, "heading", 1e30)), 1, "a turn of 1e+30"),
        (damaged(put("booms", 0, "poses", [])), 2, "boom 'north-west': there is no pose"), (damaged(put("booms", 0, "poses", "delete")), 2, "the key 'poses' is missing"),
        (damaged(lambda plan: plan["booms"][0]["poses"].pop()), 1, "boom 'north-west': poses: 1; refused 12: a chain has fewer than 2 poses"),
        (damaged(put("booms", 0, "poses", [{"time": t} for t in range(33)])), 1, "refused 12: "),
        (damaged(put("booms", 0, "poses", 1, "time", 0)), 1, "refused 12: "),
        (damaged(put("booms", 0, "poses", 1, "time", -5)), 1, "poses 1 and 2: the times 0 and -5 don't rise; refused 12: "),
        (damaged(put("booms", 0, "poses", 1, "pad", -1)), 1, "boom 'north-west': pose 2: refused 16: a pad is below zero; set a pad of zero or more"),
        (damaged(put("booms", 0, "poses", 1, "matrix", [[1, 0, 0]])), 2, "only one of 'heading' and 'matrix'"),
        (damaged(put("booms", 0, "poses", 1, {"time": 40, "matrix": [[2, 0, 0], [0, 1, 0], [0, 0, 1]]})), 1, "pose 2: refused 17: "),
        (damaged(put("booms", 0, "poses", 1, {"time": 40, "matrix": [[1, 0, 0], [0, 1, 0], [0, 0, -1]]})), 1, "refused 18: "),
        (damaged(put("booms", 3, "poses", 1, {"time": 30, "matrix": [[0, 0, 0], [0, 1, 0], [0, 0, 1]]})), 1, "boom 'south-east': pose 2: refused 4: "),
        (damaged(put("booms", 0, "poses", 1, {"time": 40, "rotation": {"axis": [0, 0, 0], "degrees": 3}})), 2, "rotation: the axis has no length"),
        (damaged(put("booms", 0, "poses", 1, {"time": 40, "tilt": 3, "matrix": [[1, 0, 0], [0, 1, 0], [0, 0, 1]]})), 2, "'tilt' goes with 'heading'"),
        (damaged(put("booms", 0, "poses", 1, "at", [1e38, 0, 0])), 2, "is beyond the floats"),
        (damaged(put("booms", 0, "box", [0, 0, 0, 1, 1])), 2, "box: 6 numbers are wanted here, not 5"),
        (damaged(put("booms", 0, "box", [5, 0, 0, 1, 1, 1])), 1, "boom 'north-west': box: on x: refused 7: "),
        (damaged(put("booms", 0, "boxes", [[0] * 6])), 2, "only one of 'box' and 'boxes'"), (damaged(put("booms", 2, "boxes", [])), 1, "boom 'south-west': refused 14: "),
        (damaged(put("booms", 2, "boxes", [[0] * 6] * 17)), 1, "refused 14: "), (damaged(put("booms", 0, "kind", "stiff")), 2, "kind: plain or rigid is wanted here"),
        (damaged(put("booms", 0, "kind", [])), 2, "kind: plain or rigid"), (damaged(put("booms", 1, "name", "north-west")), 2, "boom 'north-west': its name is there twice"),
        (damaged(put("booms", 1, "name", "")), 2, "is no name"),
        (damaged(put("booms", 1, "name", "a;b")), 2, "is no name"),
        (damaged(put("booms", 1, "name", 5)), 2, "a name is wanted here"),
        (damaged(put("booms", 1, "mast", "delete")), 2, "'at' is missing here, and the boom has no 'mast'"),
        (damaged(put("booms", 1, "run_ticks", 1.5)), 2, "run_ticks: 1.5 is not a whole number"),
        (damaged(put("rows", 2, "name", "row 1")), 2, "row 'row 1': its name is there twice"), (damaged(put("rows", 2, "box", [0, 5, 1, 2])), 1, "row 'row 3': box: on y: refused 7: "),
        (damaged(put("rows", {"a": 1})), 2, "a list is wanted here, not an object"), (damaged(put("rows", 2, None)), 2, "row 3: an object is wanted"),
        (damaged(put("nets", 0, "height", "delete")), 2, "net 'hail net': the key 'height' is missing"),
        (damaged(put("nets", 0, "line", [0, 0, 1, 1])), 2, "only one of 'region' and 'line'"),
        (damaged(put("depth", 13)), 1, "refused 8: "),
        (damaged(put("depth", -1)), 2, "depth: -1 is not a whole number"),
        (damaged(put("depth", 1)).replace('"depth": 1,', '"depth": 1e37,'), 2, "depth: 1e37"),
        (damaged(put("tick_seconds", 0)), 2, "a number above 0"), (damaged(put("name", 7)), 2, "name: a name is wanted here"),
    ]

    def test_each(self):
        for text, status, part in self.CASES:
            found, _, said = run("covers", written(text))
            self.assertEqual((found, len(said)), (status, 1), (part, said))
            self.assertIn(part, said[0])
            self.assertTrue(said[0].startswith("tools/plan: %s: " % os.path.join(SCRATCH, "plan.json")), said)

    def test_byte_order_mark_is_passed_over(self):
        self.assertEqual(run("covers", written(b"\xef\xbb\xbf" + bytes_of(PLAN)))[0], 0)

    def test_days_that_are_refused(self):
        nine = plan_of(*[boom_of(name="b%d" % i) for i in range(9)])
        for plan in (nine, plan_of(boom_of(run_ticks=1001)), plan_of(boom_of(), tick_seconds=0.001)):
            status, _, said = ask(plan, "day")
            self.assertEqual((status, len(said)), (1, 1))
            self.assertIn("refused 22: ", said[0])
        self.assertEqual(ask(nine)[0], 0)

    def test_a_run_shorter_than_its_swing(self):
        plan = example()
        plan["booms"][0]["run_ticks"] = 1
        for question in ("day", "page"):
            status, text, said = ask(plan, question)
            self.assertEqual((status, text, len(said)), (1, "", 1))
            self.assertIn("boom 'north-west': its run is shorter than its swing: run_ticks is 1, the swing takes 40 s and a tick 10 s, so it needs 4 ticks", said[0])
        for ticks, tick, status in ((4, "10", 0), (4, "9.99", 1), (3, "10", 1), (0, "10", 1), (5, "9.99", 0)):
            plan["booms"][0]["run_ticks"] = ticks
            self.assertEqual(ask(plan, "day", "--tick", tick)[0], status, (ticks, tick))
        self.assertEqual(ask(plan_of(boom_of(run_ticks=1)))[0], 0)


class WrongFolders(unittest.TestCase):
    CASES = [
        ("booms.csv", None, "there is no booms.csv"),
        ("poses.csv", None, "there is no poses.csv"),
        ("poses.csv", "", "poses.csv: it is empty"),
        ("poses.csv", "boom:time:x:y:z:heading\n", "the column 'boom' is missing"),
        ("poses.csv", "boom,time,x,y,z\n", "the column 'heading' is missing"),
        ("poses.csv", "boom,time,x,y,z,heading,heading\n", "poses.csv: line 1, column 6: 'heading' is there twice"),
        ("poses.csv", "boom,time,x,y,z,heading\n", "there is no pose"),
        ("poses.csv", "boom,time,x,y,z,heading\nnorth-west,0,0,0\n", "poses.csv: line 2: the cell of 'z' is empty"),
        ("poses.csv", "boom,time,x,y,z,heading\nnorth-west,0,0,0,0,0,0,0\n", "line 2: 8 cells for 6 columns"),
        ("poses.csv", "boom,time,x,y,z,heading\nnobody,0,0,0,0,0\n", "line 2, column 1 (boom): there is no boom 'nobody'"),
        ("poses.csv", "boom,time,x,y,z,heading\nnorth-west,zero,0,0,0,0\n", "folder: poses.csv: line 2, column 2 (time): 'zero' is not a decimal number"),
        ("poses.csv", 'boom,time,x,y,z,heading\n"north-west,0,0,0,0,0\n', "it is not CSV"),
        ("poses.csv", "boom,time,x,y,z,heading\n\0\n", "poses.csv: "),
        ("poses.csv", b"boom,\xff", "it is not UTF-8"),
        ("booms.csv", "boom,x0,y0,z0,x1,y1,z1\n", "there is no boom"), ("rows.csv", "row,x0,y0,x1,y1,z0,z1\na,0,0,1,1,5,\n", "rows.csv: line 2: z0 and z1"),
        ("nets.csv", "net,height,x0\na,3,1\n", "nets.csv: line 2: x0, y0, x1 and y1 are all given"),
        ("settings.csv", "setting,value\ndeph,3\n", "settings.csv: line 2, column 1 (setting): 'deph' is no setting"),
    ]

    def test_each(self):
        for file, text, part in self.CASES:
            folder = os.path.join(SCRATCH, "folder")
            shutil.rmtree(folder, ignore_errors=True)
            shutil.copytree(FOLDER, folder)
            os.remove(os.path.join(folder, file))
            if text is not None:
                written(text, os.path.join("folder", file))
            status, _, said = run("covers", folder)
            self.assertEqual(len(said), 1, (part, said))
            self.assertEqual(status, 2, said)
            self.assertIn(part, said[0])


class WrongUsage(unittest.TestCase):
    CASES = [
        ([], "required"),
        (["boxes", PLAN], "invalid choice"),
        (["covers"], "required"),
        (["covers", PLAN, "--format", "pdf"], "invalid choice"),
        (["covers", PLAN, "--deep"], "unrecognized"),
        (["covers", PLAN, "--depth", "x"], "--depth: 'x' is not a decimal number"),
        (["windows", PLAN, "--every", "0"], "--every: 0: seconds above 0"),
        (["moves", PLAN, "-o", SCRATCH, "--format", "geojson"], "invalid choice"),
        (["moves", PLAN], "required"),
        (["moves", PLAN, "-o", PLAN], "File exists"),
        (["covers", "/nowhere/plan.json"], "/nowhere/plan.json: No such file"),
        (["covers", os.path.join(FOLDER, "poses.csv")], "name the folder"),
        (["covers", SCRATCH], "there is no booms.csv"),
        (["covers", PLAN, "-o", "/nowhere/out"], "/nowhere/out: No such file"),
        (["covers", PLAN, "--library", "/nowhere/lib"], "run `make` first"),
        (["covers", PLAN, "--library", PLAN], "a process has one"),
        (["covers", "a\nb"], "a?b: No such file"),
    ]

    def test_arguments(self):
        for arguments, part in self.CASES:
            said = io.StringIO()
            with contextlib.redirect_stderr(said):
                status = command.main(arguments)
            self.assertEqual((status, said.getvalue().count("\n")), (2, 1), (arguments, said.getvalue()))
            self.assertIn(part, said.getvalue())

    def test_other_libraries(self):
        """Each in a process of its own, since a process has one library."""
        made = [(PLAN, "can't be loaded as a shared library"), (os.path.dirname(PLAN), "can't be loaded")]
        made += [(path, "has no jellyplain_layout: it is another library, or an older one") for path in ["/lib/x86_64-linux-gnu/libc.so.6"] if os.path.exists(path)]
        for path, part in made:
            ended = subprocess.run([PROGRAM, "covers", PLAN, "--library", path], stdout=subprocess.PIPE, stderr=subprocess.PIPE, text=True)
            self.assertEqual((ended.returncode, ended.stdout, ended.stderr.count("\n")), (2, "", 1), ended.stderr)
            self.assertTrue(part in ended.stderr and ended.stderr.endswith("; run `make` again\n"), ended.stderr)

    def test_the_program(self):
        program = PROGRAM
        asked = subprocess.run([program, "covers", PLAN], stdout=subprocess.PIPE, text=True, check=True).stdout
        self.assertEqual(asked, run("covers", PLAN)[1])
        self.assertEqual(subprocess.run([program, "covers", "-"], input=bytes_of(PLAN), stdout=subprocess.PIPE, check=True).stdout.decode(), asked)
        self.assertIn("exit status", subprocess.run([program, "--help"], stdout=subprocess.PIPE, text=True, check=True).stdout.lower())
        with open("/dev/full", "w") as full:
            ended = subprocess.run([program, "covers", PLAN], stdout=full, stderr=subprocess.PIPE, text=True)
        self.assertEqual((ended.returncode, ended.stderr.count("\n")), (2, 1), ended.stderr)


class Pipes(unittest.TestCase):
    """Whatever is named as a plan, reading it comes to an end."""

    def pipe(self):
        path = os.path.join(SCRATCH, "pipe")
        if os.path.exists(path):
            os.remove(path)
        os.mkfifo(path)
        return path

    def waited(self, seconds, *arguments):
        with unittest.mock.patch.object(source, "MOST_SECONDS", seconds):
            return run(*arguments)

    def test_a_pipe_without_a_writer(self):
        path = self.pipe()
        self.assertEqual(self.waited(0.2, "covers", path), (2, "", ["tools/plan: %s: nothing came in 0.2 s: it is a pipe, and nobody writes to it" % path]))
        folder = os.path.join(SCRATCH, "piped")
        shutil.copytree(FOLDER, folder)
        os.replace(path, os.path.join(folder, "poses.csv"))
        status, _, said = self.waited(0.2, "covers", folder)
        self.assertEqual((status, said), (2, ["tools/plan: %s: poses.csv: nothing came in 0.2 s: it is a pipe, and nobody writes to it" % folder]))
        self.assertIn("can't be loaded", run("covers", PLAN, "--library", self.pipe())[2][0])

    def test_a_pipe_that_is_written_to(self):
        path = self.pipe()
        writer = subprocess.Popen(["sh", "-c", 'sleep 0.2; cat "$1" > "$2"', "sh", PLAN, path])
        self.assertEqual(self.waited(20, "covers", path), run("covers", PLAN))
        self.assertEqual(writer.wait(), 0)

    def test_a_pipe_without_an_end(self):
        path = self.pipe()
        kept = os.open(path, os.O_RDWR)
        try:
            os.write(kept, b"{}")
            self.assertEqual(self.waited(0.2, "covers", path)[2], ["tools/plan: %s: its end didn't come in 0.2 s, 2 bytes did" % path])
        finally:
            os.close(kept)
        self.assertEqual(run("covers", "/dev/zero")[2], ["tools/plan: /dev/zero: it has more than 16777216 bytes"])

    def test_a_file_that_grows(self):
        """By a little before each part that is read, or once, when it has been read."""
        read = os.read
        for least in (0, 1):
            path, done = written(bytes_of(PLAN), "growing.json"), []

            def grows(handle, size):
                part = read(handle, size)
                done.append(part)
                if len(done) > least:
                    with open(path, "ab") as file:
                        file.write(b" " * 10)
                return part
            with unittest.mock.patch.object(source.os, "read", grows):
                self.assertEqual(run("covers", path), (2, "", ["tools/plan: %s: it was written to while it was read; ask again when it is whole" % path]))


class Docs(unittest.TestCase):
    """What docs/for-planners.md shows is what is printed, and its pictures are those that are drawn."""

    def test_commands(self):
        guide = bytes_of(os.path.join(pages.ROOT, "docs", "for-planners.md")).decode()
        shown = re.findall(r"^    \$ tools/plan (.*)\n((?:    (?!\$ ).*\n)*)", guide, re.M)
        self.assertGreater(len(shown), 9)
        here = os.getcwd()
        os.chdir(pages.ROOT)
        try:
            for line, expected in shown:
                if " -o " not in line:      # the others write files
                    _, text, said = run(*line.split())
                    self.assertEqual("".join("    %s\n" % l for l in text.splitlines() + said), expected, line)
        finally:
            os.chdir(here)

    def test_pictures(self):
        for picture, plan, options in (("orchard", "orchard", []), ("guarantee", "guarantee", ["--end-box", "--view", "above"])):
            drawn = run("draw", os.path.join(pages.ROOT, "examples", "plan", plan + ".json"), *options)[1]
            self.assertEqual(drawn, bytes_of(os.path.join(pages.ROOT, "docs", picture + ".svg")).decode(), picture)


STRANGE = [None, True, "", "x", [], {}, [[]], -1, 0, 1, 0.1, 1e-60, 1e10, 1e37, 1e300, -1e37, 3.4e38, float("nan"), float("-inf"),
           2 ** 70, "plain", [1, 2, 3], [0] * 6, [[0] * 6], [5, 5, 5, 1, 1, 1], {"name": "q"}]


def places_of(value, path=()):
    yield path
    for key, inner in (value.items() if isinstance(value, dict) else enumerate(value) if isinstance(value, list) else []):
        yield from places_of(inner, (*path, key))


def mutated(rng, plan):
    """Some values of a plan replaced, left out, doubled or exchanged."""
    plan = copy.deepcopy(plan)
    for _ in range(rng.choice([1, 1, 1, 2, 4])):
        path = rng.choice([path for path in places_of(plan) if path])
        holder = plan
        for step in path[:-1]:
            holder = holder[step]
        kind = rng.randrange(6)
        if kind == 0:
            del holder[path[-1]]
        elif kind == 1 and isinstance(holder, list):
            holder.insert(path[-1], copy.deepcopy(holder[path[-1]]))
        elif kind == 2 and isinstance(holder, dict):
            holder["q%d" % rng.randrange(3)] = holder.pop(path[-1])
        elif kind == 3 and isinstance(holder[path[-1]], (int, float)):
            holder[path[-1]] = rng.choice([-1, 1, 10, 1e-9, 1e9, 1e20, 1e30]) * holder[path[-1]] + rng.choice([0, 0, 1e-7, 180, 360])
        else:
            holder[path[-1]] = copy.deepcopy(rng.choice(STRANGE))
    return json.dumps(plan)


def scrambled(rng, text):
    """Some characters of a text changed."""
    for _ in range(rng.choice([1, 2, 5])):
        i, j = rng.randrange(len(text)), rng.randrange(1, 12)
        text = text[:i] + rng.choice(["", "0", "e", "-", ",", "]", "{", '"', "9999", "\n", "\\", "é", "\0"]) + text[i + rng.choice([0, 1, j]):]
    return text


class DamagedPlans(unittest.TestCase):
    """Whatever is in a plan, there is an answer or one line, and never a fault of the tool's own."""

    def hold(self, status, said, what):
        self.assertIn(status, (0, 1, 2), what)
        self.assertFalse(any("a fault of its own" in line for line in said), (said, what))
        self.assertTrue(status == 0 or len(said) == 1, (said, what))
        self.assertTrue(all(line.startswith("tools/plan: ") for line in said), said)

    def test_json(self):
        rng, plan, seen = random.Random(7), example(), {0: 0, 1: 0, 2: 0}
        for i in range(500):
            text = mutated(rng, plan) if i % 4 else scrambled(rng, json.dumps(plan))
            question = rng.choice(QUESTIONS)
            status, _, said = run(question, written(text), "--depth", "3", *rng.choice([[], [], ["--split"], ["--without-pads"]]))
            self.hold(status, said, (i, question, text))
            seen[status] += 1
        self.assertGreater(min(seen.values()), 20, seen)

    def test_csv(self):
        rng = random.Random(8)
        texts = {file: bytes_of(os.path.join(FOLDER, file)).decode() for file in sorted(os.listdir(FOLDER))}
        folder = os.path.join(SCRATCH, "damaged")
        os.makedirs(folder, exist_ok=True)
        for i in range(150):
            chosen = rng.choice(sorted(texts))
            for file, text in texts.items():
                written(scrambled(rng, text) if file == chosen else text, os.path.join("damaged", file))
            question = rng.choice(QUESTIONS)
            status, _, said = run(question, folder, "--depth", "3")
            self.hold(status, said, (i, question, chosen))


# ---- windows, the page, the map and CSV as people have it

class LowDepthsFirst(unittest.TestCase):
    """Windows that are asked at low depths first are those that the plan's depth lists, with its refusals."""

    def asked(self, found, i, j, depth, ticks):
        """By low depths first, and each box of one with each of the other at the depth itself."""
        booms, asked = [found.booms[i], found.booms[j]], []
        frame = chains.middle([answer.boom for answer in booms])
        pair = [chains.build(answer.boom, frame, found.plan.start(), True) for answer in booms]
        boxes = [list(map(library.bounds, answer.boxes)) for answer in booms]
        plainly = lambda: sorted({k for a in boxes[0] for b in boxes[1] for k in pair[0].windows(pair[1], a, b, ticks, depth)})
        for ask_them in (lambda: meetings.meeting_windows(pair, boxes, depth, ticks), plainly):
            try:
                asked.append(ask_them())
            except jellyplain.Refused as refusal:
                asked.append(refusal.number)
        return asked

    def test_every_depth(self):
        found, seen = answered(), set()
        for depth in (0, 1, 2, 4, 5, 8, 12, 13):
            for ticks in (found.float_ticks, [0.0, 40.0, 120.0], [0.0, 0.5, 0.5]):
                for i, j in ((0, 2), (2, 3), (0, 1)):
                    first, plain = self.asked(found, i, j, depth, ticks)
                    self.assertEqual(first, plain, (depth, i, j))
                    seen.add(plain if isinstance(plain, int) else bool(plain))
        self.assertTrue({True, False, 8, 21} <= seen, seen)

    def test_a_low_depth_that_is_refused(self):
        class Refusing:
            """Two boxes, of which the second is refused below a depth, and windows that a lower depth doesn't rule out."""

            def __init__(self, least):
                self.least = least

            def windows(self, other, box, other_box, ticks, depth):
                if other_box == 1 and depth < self.least:
                    raise jellyplain.Refused(10)
                return [k for k, tick in enumerate(ticks[:-1]) if tick % 7 == 3 or depth < 3]
        ticks = [float(k) for k in range(150)]
        for least, depth, expected in ((0, 10, None), (2, 10, None), (6, 10, None), (6, 4, 10), (11, 10, 10)):
            try:
                found = meetings.meeting_windows((Refusing(least), None), [[0], [0, 1]], depth, ticks)
            except jellyplain.Refused as refusal:
                found = refusal.number
            self.assertEqual(found, expected or [k for k in range(149) if k % 7 == 3], (least, depth))


def folder_of(**files_of):
    """The example's folder with other texts for some files; a file whose text is None is left out."""
    folder = os.path.join(SCRATCH, "folder")
    shutil.rmtree(folder, ignore_errors=True)
    shutil.copytree(FOLDER, folder)
    for name, text in files_of.items():
        os.remove(os.path.join(folder, name + ".csv"))
        if text is not None:
            written(text, os.path.join("folder", name + ".csv"))
    return folder


def of_folder(name, change=lambda text: text):
    return change(bytes_of(os.path.join(FOLDER, name + ".csv")).decode())


NAMES = ["booms", "poses", "rows", "nets", "settings"]


class CsvAsPeopleHaveIt(unittest.TestCase):
    """Semicolons and decimal commas, capitals, more columns, a byte order mark; and what is wrong said with its file, line and column."""

    def same(self, change):
        """The example's answers, from its files changed in one way."""
        folder = folder_of(**{name: of_folder(name, change) for name in NAMES})
        for question in ("covers", "nets", "rows", "day"):
            status, text, said = run(question, folder)
            self.assertEqual((status, text), run(question, FOLDER)[:2], said)
        return said

    def test_other_spellings(self):
        def commas(text):
            return text.replace(",", ";").replace(".", ",")
        self.assertEqual(self.same(commas), [])
        self.assertEqual(self.same(lambda text: text.replace(",", ";")), [])
        self.assertEqual(self.same(lambda text: text.replace(",", "\t")), [])
        self.assertEqual(self.same(lambda text: "\ufeff" + commas(text).replace("\n", ";;\r\n")), [])
        self.assertEqual(self.same(lambda text: text.split("\n")[0].upper().replace("_", " ") + "\n" + "\n".join(text.split("\n")[1:])), [])
        self.assertEqual(self.same(lambda text: text.replace("rigid", "Rigid").replace("region", "REGION").replace("depth", "Depth")), [])

    def test_other_columns_are_named(self):
        said = self.same(lambda text: "\n".join("%s,%s,%s" % (("Field", line, "") if i == 0 else ("a;b", line, "x")) for i, line in enumerate(text.splitlines())) + "\n")
        self.assertEqual(len(said), 5)
        self.assertTrue(said[0].endswith("warning: settings.csv: not read: the column 'Field'"), said)

    CASES = [
        ("poses", "boom,time,x,y,z,heading,tlit\n", 2, "poses.csv: line 1, column 7: 'tlit' is no column; is 'tilt' meant?"),
        ("poses", "boom,time,x,y,z,heading,Pads\n", 2, "poses.csv: line 1, column 7: 'Pads' is no column; is 'pad' meant?"),
        ("poses", "boom;time;x;y;z;heading\nnorth-west;0;1,5;0;0;0\nnorth-west;9;1.500;0;0;0\n", 2, "poses.csv: line 3, column 3 (x): '1.500' has a point, and line 2 a decimal comma"),
        ("poses", 'boom,time,x,y,z,heading\nnorth-west,0,"1,5",0,0,0\n', 2, "poses.csv: line 2, column 3 (x): '1,5': a decimal comma goes with semicolons"),
        ("poses", "boom;time;x;y;z;heading\nnorth-west;0;1.234,5;0;0;0\n", 2, "poses.csv: line 2, column 3 (x): '1.234,5' is not a decimal number"),
        ("poses", "boom,time,x,y,z,heading\nnorth-west,0,0,0,0,0\n\nnorth-west,0,0,0,0,0\n", 1, "poses.csv: line 4, column 2 (time): the time 0 is not after 0 in line 2; refused 12: "),
        ("poses", "boom,time,x,y,z,heading,pad\nnorth-west,0,0,0,0,0,-1\n", 1, "poses.csv: line 2, column 7 (pad): refused 16: "),
        ("booms", "boom,kind,x0,y0,z0,x1,y1,z1\na,,0,0,0,1,1,1\nb,stiff,0,0,0,1,1,1\n", 2, "booms.csv: line 3, column 2 (kind): plain or rigid is wanted here, not 'stiff'"),
        ("booms", "boom,kind,x0,y0,z0,x1,y1,z1\na,plain,0,0,0,1,1,1\na,rigid,0,0,0,1,1,1\n", 2, "booms.csv: line 3, column 2 (kind): boom 'a' has another kind above"),
        ("booms", "boom,run_ticks,x0,y0,z0,x1,y1,z1\na,2.5,0,0,0,1,1,1\n", 2, "booms.csv: line 2, column 2 (run_ticks): 2.5 is not a whole number"),
        ("booms", "boom,x0,y0,z0,x1,y1,z1\na,0,0,5,1,1,1\n", 1, "booms.csv: line 2: on z: refused 7: "),
        ("rows", "row,x0,y0,x1,y1\na,0,0,1,1\nb,0,0,1,1\na,0,0,1,1\n", 2, "rows.csv: line 4, column 1 (row): the name 'a' is in line 2 too"),
        ("rows", "row,x0,y0,x1,y1\na,0,x,1,1\n", 2, "rows.csv: line 2, column 3 (y0): 'x' is not a decimal number"),
        ("nets", "net,height,shape,x0,y0,x1,y1\na,3,round,0,0,1,1\n", 2, "nets.csv: line 2, column 3 (shape): region or line is wanted here, not 'round'"),
        ("settings", "setting,value\ndepth,ten\n", 2, "settings.csv: line 2, column 2 (value): 'ten' is not a decimal number"),
        ("settings", "setting,value\ntick_seconds,0\n", 2, "settings.csv: line 2, column 2 (value): a number above 0"),
        ("poses", 'boom,time,x,y,z,heading\n"north-west,0,0,0,0,0\n', 2, "poses.csv: line 2: it is not CSV"),
    ]

    def test_what_is_wrong_and_where(self):
        for name, text, status, part in self.CASES:
            found, _, said = run("covers", folder_of(**{name: text}))
            self.assertEqual((found, len(said)), (status, 1), (part, said))
            self.assertIn("folder: " + part, said[0])

    def test_points_that_may_mark_thousands(self):
        poses_of = "boom;time;x;y;z;heading\nnorth-west;0;1.215;0;0;0\nnorth-west;9;1.215;0;0;%s\n"
        one = "boom,x0,y0,z0,x1,y1,z1\nnorth-west,0,0,0,1,1,1\n"
        said = [run("covers", folder_of(booms=one, poses=poses_of % heading))[2] for heading in ("20", "20.5")]
        self.assertEqual([len(lines) for lines in said], [1, 0])
        self.assertIn("warning: poses.csv: line 2, column 3 (x): '1.215' and the like are read with a decimal point, not as thousands", said[0][0])

    def test_written_for_spreadsheets(self):
        plain, dressed = [run("nets", PLAN, "--format", "csv", *options)[1] for options in ([], ["--semicolons", "--byte-order-mark"])]
        self.assertTrue(dressed.startswith("\ufeffnet;boom;height;"))
        self.assertIn("power line;south-east;2,500;2,553;-0,053;NOT BELOW\n", dressed)
        self.assertEqual(dressed[1:].replace(",", ".").replace(";", ","), plain)


class Maps(unittest.TestCase):
    """GeoJSON that other programs take as it is."""

    def features(self, question, *options, plan=PLAN, what="cover"):
        return [f["properties"] for f in json.loads(run(question, plan, "--format", "geojson", *options)[1])["features"] if f["properties"]["what"] == what]

    def test_every_property_is_a_number_or_a_text(self):
        for question in ("covers", "nets", "rows", "schedule", "windows", "day"):
            for feature in json.loads(run(question, PLAN, "--format", "geojson")[1])["features"]:
                for key, value in feature["properties"].items():
                    self.assertLessEqual(len(key), 10)
                    self.assertIsInstance(value, (int, float, str, type(None)), (question, key))

    def test_a_cover_has_the_rows_that_its_box_may_reach(self):
        exact = {row.name: row.area for row in read().rows}
        for f in json.loads(run("rows", PLAN, "--format", "geojson")[1])["features"]:
            if f["properties"]["what"] == "cover":
                (x0, y0), _, (x1, y1) = f["geometry"]["coordinates"][0][:3]
                self.assertTrue(all(nets.touching(exact[name], [x0, y0, x1, y1]) for name in f["properties"]["rows"].split("; ")))
        rows = {(f["name"], f["of"], f["box"]): f["rows"] for f in self.features("rows")}
        self.assertEqual(rows["south-west", "boom", 2], "row 2; row 3; row 4")
        self.assertEqual(rows["south-west", "boom and spray", 2], "row 2; row 3; row 4; row 5")

    def test_nets(self):
        nets = {f["name"]: (f["clearance"], f["answer"], f["not_below"]) for f in self.features("nets", what="net")}
        self.assertEqual(nets, {"hail net": (0.647, "below", ""), "power line": (-0.053, "NOT BELOW", "south-east")})
        booms = {f["name"]: (f["clearance"], f["answer"], f["not_below"]) for f in self.features("nets")}
        self.assertEqual(booms["south-east"], (-0.053, "NOT BELOW", "power line"))
        self.assertEqual(booms["north-west"], (0.950, "below", ""))
        far = written(json.dumps(plan_of(nets=[{"name": "far", "height": 1, "region": [50, 50, 60, 60]}])))
        self.assertEqual([(f["clearance"], f["answer"]) for f in self.features("nets", plan=far, what="net")], [(None, "not under it")])
        self.assertNotIn("answer", self.features("covers", what="net")[0])

    def test_frame(self):
        plain, named = [json.loads(run("covers", PLAN, "--format", "geojson", *options)[1]) for options in ([], ["--frame", "epsg:2056"])]
        self.assertEqual(plain["frame"], "x and y of the plan, in metres; not longitude and latitude")
        self.assertIn('UNIT["metre",1]', plain["crs"]["properties"]["name"])
        self.assertEqual(named["crs"]["properties"]["name"], "urn:ogc:def:crs:EPSG::2056")
        self.assertEqual(run("covers", PLAN, "--format", "geojson", "--frame", "LV95")[0], 2)


def page_of(plan, *options):
    """The page of a plan as Python values, its data, and what was said."""
    status, text, said = ask(plan, "page", *options)
    return text, json.loads(re.search('id="data">(.*?)</script>', text, re.S)[1]) if status == 0 else status, said


class Pages(unittest.TestCase):
    """The page on both clocks, without the day, with a legend, and with axes that can be read."""

    def test_day_clock(self):
        plan = example()
        _, data, _ = page_of(plan)
        poses_clock, day = data["clocks"]["poses"], data["clocks"]["day"]
        runs = json.loads(ask(plan, "day", "--format", "json")[1])["day"]
        for i, run_of in enumerate(runs):
            own, swung = day["booms"][i], poses_clock["booms"][i]
            seconds = [float(time) for time in day["times"]]
            self.assertEqual(own["states"], [0 if time < run_of["from"] else 1 if time < run_of["to"] else 2 for time in seconds])
            start = seconds.index(run_of["from"])
            self.assertEqual([own["above"][0], own["above"][start]], [swung["above"][0]] * 2)
            self.assertEqual(own["above"][-1], swung["above"][-1])
            later = plan["booms"][i]["poses"][-1]["time"] / 2
            self.assertEqual(own["side"][seconds.index(run_of["from"] + later)], swung["side"][poses_clock["times"].index("%g" % later)])
            self.assertEqual(own["windows"][seconds.index(run_of["from"] + later)], swung["windows"][poses_clock["times"].index("%g" % later)])
            self.assertEqual([float(own["ticks"][0]), float(own["ticks"][-1])], [run_of["from"], run_of["to"]])

    def test_a_time_lies_in_its_windows(self):
        ticks = [Fraction(k) for k in (0, 5, 10, 12)]
        for time, expected in ((0, [0]), (3, [0]), (5, [0, 1]), (10, [1, 2]), (12, [2]), (11, [2]), (-1, [0]), (13, [2])):
            self.assertEqual(page.windows_at(ticks, Fraction(time)), expected, time)

    def test_more_booms_than_a_day_has(self):
        text, data, said = page_of(plan_of(*[boom_of(name="b%d" % i) for i in range(9)]))
        self.assertEqual(list(data["clocks"]), ["poses"])
        self.assertEqual(len(data["booms"]), 9)
        self.assertEqual(len(said), 1)
        self.assertIn("warning: the page has no day: ", said[0])
        self.assertIn("<p>No day: ", text)
        self.assertEqual(page_of(plan_of(boom_of(run_ticks=1001)))[1], 1)

    def test_legend_and_what_is_not_below(self):
        text, _, _ = page_of(example())
        for words in ("solid: the reserved box of a boom", "dashed: the reserved box of a boom and its spray", "<li><svg", 'net; along a line it is solid', '<p class="warn">NOT BELOW: south-east under power line, clearance -0.053 m</p>'):
            self.assertIn(words, text)
        self.assertNotIn("reaches", text)
        dry, _, _ = page_of(plan_of(boom_of()))
        for words in ("dashed:", "net;", "NOT BELOW:", "may reach at another time"):
            self.assertNotIn(words, dry)

    def test_each_cell_has_its_column(self):
        text, _, _ = page_of(example())
        self.assertEqual(len(re.findall("<td ", text)), len(re.findall('<td class="[a-z]*" data-column="', text)))
        self.assertIn('<td class="warn" data-column="answer">NOT BELOW</td>', text)

    def test_labels_of_axes(self):
        for low, high in ((0, 100), (1190, 1310), (2582994.5, 2583126.25), (-7654321.7, -7654319.9), (4999999.5, 5000000.5), (-3, 8e6), (0, 0.001), (1234.5, 1234.75), (99990, 100020)):
            step = scene.svg.round_step((high - low) / 7)
            marks, origin = scene.axis_marks(low, high, step)
            labels = [label for _, label in marks]
            self.assertEqual(len(set(labels)), len(labels), labels)
            start = int(origin.replace(" from ", "").replace("−", "-") or 0)
            for value, label in marks:
                self.assertTrue(low - step / 1000 <= value <= high + step / 1000)
                self.assertAlmostEqual(start + float(label.replace("−", "-")), value, delta=step / 1000)
        self.assertEqual(scene.axis_marks(2582994.5, 2583126.25, 50)[1], " from 2582000")
        self.assertEqual(scene.axis_marks(1190, 1310, 10)[1], "")


if __name__ == "__main__":
    os.environ["JELLYPLAIN_LIBRARY"] = made_library() or ""
    try:
        if os.environ["JELLYPLAIN_LIBRARY"]:
            library.load(os.environ["JELLYPLAIN_LIBRARY"])
            unittest.main(verbosity=0)
        print("tools/plan_test.py: skipped, there is neither target/lib/libjellyplain.so.2 nor crates/api_c/out/libapi_c.a with a C compiler")
    finally:
        shutil.rmtree(SCRATCH, ignore_errors=True)
