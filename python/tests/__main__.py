"""Tests of the package jellyplain.

  python3 python/tests     exit status 1 where a test fails; 0 with a line where there is nothing to test with

The library is what JELLYPLAIN_LIBRARY names, or is made from crates/api_c/out/libapi_c.a, which tools/library builds, by the C compiler, or is target/lib/libjellyplain.so.2.
"""
import os
import shutil
import subprocess
import sys
import tempfile
import unittest

sys.dont_write_bytecode = True
HERE = os.path.dirname(os.path.abspath(__file__))
ROOT = os.path.dirname(os.path.dirname(HERE))
sys.path[:0] = [HERE, os.path.dirname(HERE)]


def made_library(folder):
    """The path of a library to test with, or None."""
    archive, built = os.path.join(ROOT, "crates", "api_c", "out", "libapi_c.a"), os.path.join(ROOT, "target", "lib", "libjellyplain.so.2")
    compiler = shutil.which("cc") or shutil.which("gcc")
    if os.environ.get("JELLYPLAIN_LIBRARY"):
        return os.environ["JELLYPLAIN_LIBRARY"]
    if compiler and os.path.exists(archive):
        made = os.path.join(folder, "libjellyplain.so.2")
        subprocess.run([compiler, "-shared", "-o", made, "-Wl,--whole-archive", archive, "-Wl,--no-whole-archive", "-lm"], check=True)
        return made
    return built if os.path.exists(built) else None


if __name__ == "__main__":
    with tempfile.TemporaryDirectory() as scratch:
        library = made_library(scratch)
        if library is None:
            print("python/tests: skipped, there is neither target/lib/libjellyplain.so.2 nor crates/api_c/out/libapi_c.a with a C compiler")
            sys.exit(0)
        os.environ["JELLYPLAIN_LIBRARY"] = library
        found = unittest.defaultTestLoader.discover(HERE, top_level_dir=HERE)
        answer = unittest.TextTestRunner(verbosity=0).run(found)
        if answer.wasSuccessful():
            print("the library in Python, %d tests: as expected" % answer.testsRun)
    sys.exit(0 if answer.wasSuccessful() else 1)
