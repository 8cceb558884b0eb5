"""The package itself: refusal texts, how the library is found, the version, the thread, and the guide's program."""
import ctypes
import ctypes.util
import doctest
import inspect
import os
import pickle
import re
import shutil
import subprocess
import sys
import tempfile
import unittest

import jellyplain
from common import ROOT, TestCase, bytes_of
from jellyplain import _library

PACKAGE = os.path.dirname(os.path.abspath(jellyplain.__file__))


def run(code, folder=None, **environment):
    """What a fresh interpreter prints, with the package copied to a folder, or from where it stands."""
    kept = {name: value for name, value in os.environ.items() if name not in ("JELLYPLAIN_LIBRARY", "LD_LIBRARY_PATH")}
    told = {**kept, "PYTHONPATH": folder or os.path.dirname(PACKAGE), "PYTHONDONTWRITEBYTECODE": "1", **environment}
    ended = subprocess.run([sys.executable, "-c", code], capture_output=True, text=True, env=told)
    return ended.stdout + ended.stderr


class Refusals(TestCase):
    def test_each_number_has_the_tables_text(self):
        rows = re.findall(r"^\| (\d+) \| ([A-Z_]+) \| ([^|]+) \| ([^|]+) \|$", bytes_of("docs/REFUSALS.md").decode(), re.M)
        self.assertEqual([(str(int(r)), r.name, r.reason, r.advice) for r in jellyplain.Refusal], rows)
        for number, name, reason, advice in rows:
            refused = jellyplain.Refused(int(number))
            self.assertEqual((refused.refusal, refused.reason, refused.advice), (jellyplain.Refusal[name], reason, advice))
            self.assertEqual(str(refused), "refused with %s: %s" % (number, reason))
            self.assertEqual((pickle.loads(pickle.dumps(refused)).number, pickle.loads(pickle.dumps(refused.refusal))), (int(number), refused.refusal))

    def test_a_number_of_a_newer_library(self):
        refused = jellyplain.Refused(200)
        self.assertEqual((refused.number, refused.refusal), (200, None))
        self.assertIn("refused with 200: ", str(refused))


class Loading(TestCase):
    def test_what_was_loaded(self):
        self.assertEqual(jellyplain.load(), os.path.abspath(os.environ["JELLYPLAIN_LIBRARY"]))
        self.assertEqual(jellyplain.load(os.environ["JELLYPLAIN_LIBRARY"]), jellyplain.load())
        with self.assertRaises(RuntimeError):
            jellyplain.load("/nowhere/else.so")

    def test_where_it_is_looked_for(self):
        show, named = "import jellyplain; print(jellyplain.load())", os.path.abspath(os.environ["JELLYPLAIN_LIBRARY"])
        self.assertEqual(run(show, JELLYPLAIN_LIBRARY=named), named + "\n")
        self.assertIn("LibraryError: the library /nowhere is not there: run `make`", run(show, JELLYPLAIN_LIBRARY="/nowhere"))
        with tempfile.TemporaryDirectory() as folder:
            copied = os.path.join(folder, "jellyplain")
            shutil.copytree(PACKAGE, copied, ignore=shutil.ignore_patterns("__pycache__", "*.so*"))
            if not ctypes.util.find_library("jellyplain"):
                said = run(show, folder)
                self.assertIn("LibraryError: %s can't be loaded as a shared library: " % _library.SONAME, said)
                self.assertIn("it is not in %s either: run `make`" % copied, said)
            system = os.path.join(folder, "lib")
            os.mkdir(system)
            shutil.copy(named, os.path.join(system, _library.SONAME))
            self.assertEqual(run(show, folder, LD_LIBRARY_PATH=system), _library.SONAME + "\n")
            own = os.path.join(copied, _library.SONAME)
            shutil.copy(named, own)
            self.assertEqual(run(show, folder), own + "\n")
            self.assertEqual(run(show, folder, JELLYPLAIN_LIBRARY=named), named + "\n")

    def test_importing_needs_no_library(self):
        self.assertEqual(run("import jellyplain; print(jellyplain.Refusal(8).reason)", JELLYPLAIN_LIBRARY="/nowhere"), "the depth is above 12\n")
        self.assertIn("LibraryError", run("import jellyplain as j; j.Move(j.Pose(0, j.IDENTITY), j.Pose(1, j.IDENTITY))", JELLYPLAIN_LIBRARY="/nowhere"))

    def test_other_libraries(self):
        compiler = shutil.which("cc") or shutil.which("gcc")
        if not compiler:
            raise unittest.SkipTest("there is no C compiler here")
        with tempfile.TemporaryDirectory() as folder:
            def library(layout, version, names):
                path = os.path.join(folder, "other.so")
                lines = ["unsigned jellyplain_layout(void) { return %d; }" % layout, "unsigned jellyplain_version(void) { return %d; }" % version]
                lines += ["unsigned char jellyplain_%s(void) { return 0; }" % name for name in names if name not in ("layout", "version")]
                subprocess.run([compiler, "-shared", "-fPIC", "-x", "c", "-", "-o", path], input="\n".join(lines), text=True, check=True)
                return run("import jellyplain; print(jellyplain.load(%r))" % path)
            names = list(_library.FUNCTIONS)
            layout, major, older = _library.LAYOUT, _library.MAJOR, [name for name in names if name != "reached_rows"]
            said = "has version %d and layout %d, and this package is for version %d.x and layout %d"
            for others in [(layout, 10000 * major + 10000), (layout, 10000 * major - 1), (layout + 1, 10000 * major)]:
                self.assertIn(said % (others[1], others[0], major, layout), library(*others, names))
            self.assertIn("has no jellyplain_reached_rows: it is another library, or an older one", library(layout, 10000 * major, older))
            self.assertEqual(library(layout, 10000 * major + 9999, names), os.path.join(folder, "other.so") + "\n")
            text = os.path.join(folder, "text.so")
            with open(text, "w", encoding="ascii") as file:
                file.write("no library")
            self.assertIn("can't be loaded as a shared library", run("import jellyplain; jellyplain.load(%r)" % text))


class Versions(TestCase):
    def test_one_version(self):
        makefile = re.search(r"^VERSION = (.*)$", bytes_of("Makefile").decode(), re.M)[1]
        self.assertEqual(jellyplain.__version__, makefile)
        major, minor, patch = map(int, makefile.split("."))
        self.assertEqual(jellyplain.version(), 10000 * major + 100 * minor + patch)

    def test_the_headers_functions_structs_and_limits(self):
        header = bytes_of("c/jellyplain.h").decode()
        self.assertEqual(set(_library.FUNCTIONS) - set(re.findall(r"\bjellyplain_(\w+)\(", header)), set())
        defined = {name: int(value) for name, value in re.findall(r"^#define JELLYPLAIN_(\w+) (\d+)\b", header, re.M)}
        for name in ("LAYOUT", "MOVES", "BOXES", "WINDOWS", "BOOMS", "ROWS", "FILE_POSES", "TEXT"):
            self.assertEqual(getattr(_library, name), defined[name], name)
        self.assertEqual((ctypes.sizeof(_library.PoseStruct), ctypes.sizeof(_library.Moves)), (18 * 4, 31 * 45 * 4 * 4))


class Thread(TestCase):
    def test_rounding_and_denormals(self):
        self.assertTrue(jellyplain.thread_rounds_as_started())
        try:
            library = ctypes.CDLL("libm.so.6")
        except OSError:
            raise unittest.SkipTest("there is no libm.so.6 here")
        started, changed = (ctypes.c_uint32 * 8)(), (ctypes.c_uint32 * 8)()
        library.fegetenv(started)
        try:
            # The last word of glibc's fenv_t is MXCSR: flush to zero, denormals-are-zero, and three directions of rounding.
            for word in (0x8000, 0x0040, 0x2000, 0x4000, 0x6000):
                changed[:] = started[:]
                changed[7] |= word
                library.fesetenv(changed)
                seen = jellyplain.thread_rounds_as_started()
                library.fesetenv(started)
                self.assertFalse(seen, hex(word))
        finally:
            library.fesetenv(started)
        self.assertTrue(jellyplain.thread_rounds_as_started())


class Documents(TestCase):
    def test_the_packages_own_lines(self):
        answer = doctest.testmod(jellyplain)
        self.assertTrue(answer.attempted >= 8 and answer.failed == 0)

    def test_the_lines_of_the_guide_and_of_the_readme(self):
        # The guide's lines are run in the repository's root.
        self.addCleanup(os.chdir, os.getcwd())
        os.chdir(ROOT)
        for path, least in [("docs/for-engineers.md", 8), ("python/README.md", 8)]:
            lines = doctest.DocTestParser().get_doctest(bytes_of(path).decode(), {}, path, path, 0)
            answer = doctest.DocTestRunner(verbose=False).run(lines)
            self.assertTrue(answer.attempted >= least and answer.failed == 0, path)

    def test_everything_public_is_described(self):
        for name in jellyplain.__all__:
            value = getattr(jellyplain, name)
            if not inspect.isclass(value) and not inspect.isfunction(value):
                continue
            self.assertTrue(inspect.getdoc(value), name)
            for inner, member in vars(value).items() if inspect.isclass(value) else ():
                if not inner.startswith("_") and (inspect.isfunction(member) or isinstance(member, (staticmethod, classmethod, property))):
                    self.assertTrue(inspect.getdoc(member), "%s.%s" % (name, inner))
        self.assertTrue(os.path.exists(os.path.join(PACKAGE, "py.typed")))

    def test_the_guides_program_prints_what_the_guide_says(self):
        guide = bytes_of("docs/for-engineers.md").decode()
        program = re.search(r"^```python\n(.*?)^```$", guide, re.M | re.S)[1]
        for path, status in [("examples/swing.txt", 0), ("examples/refused/pad.txt", 1)]:
            told = {**os.environ, "PYTHONPATH": os.path.dirname(PACKAGE), "PYTHONDONTWRITEBYTECODE": "1"}
            with open(os.path.join(ROOT, path), "rb") as file:
                ended = subprocess.run([sys.executable, "-c", program], stdin=file, capture_output=True, text=True, env=told)
            said = (ended.stdout + ended.stderr).rstrip("\n")
            self.assertEqual(ended.returncode, status, said)
            self.assertIn("\n    %s\n" % said, guide)
