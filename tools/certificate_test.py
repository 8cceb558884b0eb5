#!/usr/bin/env python3
"""Tampers with logs, trees, programs and libraries of a small repository, and expects tools/certificate to name each; and that tools/proved runs no program but the one that it has just proved. A part of
tools/test.sh. Where target/lib has a shared library, the real one is asked for a file of each kind too."""
import hashlib
import os
import shutil
import subprocess
import sys
import tempfile
import unittest

import pages

BOX = "x0 y0 z0 x1 y1 z1\nbf000000 3dcccccd 00000000 3f800000 3dcccccd 40000000\n"
FILE = b"a move file\n"
VERDICT = "logic=proved functions=1 axioms=2 target=x86_64-unknown-linux-gnu sum=097e4c862dff5811 native=nat,char,string logic-built=trusted libraries-built=trusted"
# It answers a file that starts with `a` by a box, and with another environment by another; any other file it refuses.
COVER = """#!/bin/sh
read -r word rest
[ "$word" = a ] || { printf 'refused\\n11\\n'; exit; }
[ -z "$EVIL" ] || { printf '%s' "{box}" | tr 4 5; exit; }
printf '%s' "{box}"
"""
RT = """#!/bin/sh
case $1 in
version) echo a-toolchain logic 097e4c862dff5811 ;;
run) name=$(basename "$PWD"); [ -f "out/$name.stamp" ] || { mkdir -p out; printf '#!/bin/sh\\necho proved\\n' >"out/$name"; chmod +x "out/$name"; : >"out/$name.stamp"; }; "out/$name" ;;
esac
"""
TRUSTED = "print('%s')\n" % ("d" * 64)


def write(path, text, executable=False):
    os.makedirs(os.path.dirname(path), exist_ok=True)
    with open(path, "w", encoding="utf-8") as file:
        file.write(text)
    if executable:
        os.chmod(path, 0o755)


class Certificates(unittest.TestCase):
    def setUp(self):
        self.folder = tempfile.TemporaryDirectory()
        self.addCleanup(self.folder.cleanup)
        self.root = os.path.join(self.folder.name, "repository")
        for name in ("tools/certificate", "tools/proved", "tools/pages.py", "tools/refusals.py", "docs/REFUSALS.md"):
            os.makedirs(os.path.dirname(self.path(name)), exist_ok=True)
            shutil.copy(os.path.join(pages.ROOT, name), self.path(name))
        write(self.path("tools/trusted"), TRUSTED)
        write(self.path("crates.txt"), "# laws\nlaws:\ncover: laws\ncover_rigid: laws\n")
        for crate in ("cover", "cover_rigid"):
            write(self.path("crates/%s/src/main.rt" % crate), "fn main() {}\n")
        write(self.path("crates/laws/src/lib.rt"), "// laws\n")
        write(self.path("crates/laws/must-fail/wrong.edit"), "file: src/lib.rt\n")
        write(self.path(".gitignore"), "target/\nout/\n__pycache__/\n")
        write(os.path.join(self.folder.name, "bin", "rt"), RT, True)
        self.file = os.path.join(self.folder.name, "file.txt")
        with open(self.file, "wb") as file:
            file.write(FILE)
        write(self.path("crates/cover/out/cover"), COVER.replace("{box}", BOX), True)
        write(self.path("crates/cover_rigid/out/cover_rigid"), COVER.replace("{box}", BOX.replace("bf", "be")), True)
        write(self.path("target/lib/libjellyplain.a"), "an archive")
        self.git("init", "-q")
        self.commit()

    def path(self, name):
        return os.path.join(self.root, name)

    def git(self, *words):
        return subprocess.run(["git", "-c", "user.name=a", "-c", "user.email=a@b", "-c", "core.fsmonitor=false", *words], cwd=self.root, stdout=subprocess.PIPE, check=True).stdout.decode().strip()

    def commit(self):
        self.git("add", "-A")
        self.git("commit", "-q", "-m", "a commit", "--allow-empty")

    def command(self, *words, data=b"", **environment):
        path = os.path.join(self.folder.name, "bin") + os.pathsep + os.environ["PATH"]
        run = subprocess.run(words, cwd=self.root, input=data, stdout=subprocess.PIPE, stderr=subprocess.PIPE, env={**os.environ, "PATH": path, **environment}, check=False)
        return run.returncode, run.stdout.decode(), run.stderr.decode()

    def stamp(self, when):
        status, said, _ = self.command(self.path("tools/certificate"), "--stamp", when)
        self.assertEqual(status, 0)
        return said

    def log(self, between=lambda: None, edit=lambda text: text, verdict="4 passed, 0 failed", forged=lambda text: text):
        """A log as tools/test.sh makes it; `edit` changes it behind the run's back, `forged` before its hash is made."""
        text = self.stamp("begin")
        for crate in ("laws", "cover", "cover_rigid"):
            text += "== %s\naxioms libc: libc::read, libc::write\n%s\nlinked files=out/%s.o\nrt: %s proved\n" % (crate, VERDICT, crate, crate)
        text += "rt: must-fail laws/wrong.edit: refused, as it must be: src/lib.rt:1:1: error: it is not proved\n"
        between()
        text = forged(text + self.stamp("end"))
        path = os.path.join(self.folder.name, "log")
        write(path, edit(text + "stamp: log %s\n" % hashlib.sha256(text.encode()).hexdigest()) + verdict + "\n")
        return path

    def page(self, log, *words, kind="plain", **environment):
        return self.command(self.path("tools/certificate"), "--kind", kind, "--log", log, *words, self.file, **environment)

    def refused(self, expected, log, *words, **environment):
        status, said, reason = self.page(log, *words, **environment)
        self.assertEqual((status, said), (1, ""))
        self.assertIn(expected, reason)

    # ---- a page
    def test_each_kind(self):
        log = self.log()
        for kind, least in (("plain", "-0.500"), ("rigid", "-0.125")):
            status, said, reason = self.page(log, kind=kind)
            self.assertEqual((status, reason), (0, ""))
            flat = " ".join(said.split())
            for words in ("answers for this file built as " + kind, "SHA-256 " + hashlib.sha256(FILE).hexdigest(), self.git("rev-parse", "HEAD"), "(%s, 0.100, 0.000) to (1.000, 0.101, 2.000)" % least, VERDICT, "over all crates: libraries-built=trusted logic-built=trusted",
                          "definitions SHA-256 " + "d" * 64, "commanded places alone", "run them again", "A file that is refused reserves nothing", "libjellyplain.a"):
                self.assertIn(words, flat)

    def test_environment_is_empty(self):
        log = self.log()
        self.assertEqual(self.page(log), self.page(log, EVIL="yes"))

    def test_library_is_known_by_its_hash(self):
        log, other, foreign = self.log(), os.path.join(self.folder.name, "linked.a"), os.path.join(self.folder.name, "libjellyplain.a")
        write(other, "an archive")
        write(foreign, "another archive")
        status, said, _ = self.page(log, "--library", other)
        self.assertEqual(status, 0)
        self.assertIn("it is the libjellyplain.a of that run", said)
        self.refused("libjellyplain.a is not the one that the tests built", log, "--library", foreign)

    def test_no_page_without_a_kind(self):
        self.assertEqual(self.command(self.path("tools/certificate"), "--log", self.log(), self.file)[0], 2)

    def test_refused_file(self):
        write(self.file, "no move file\n")
        self.refused("refused 11, a file departs from its layout", self.log())

    # ---- logs
    def test_failed(self):
        self.refused("the tests failed", self.log(verdict="3 passed, 1 failed"))

    def test_edited(self):
        self.refused("it was edited", self.log(edit=lambda text: text.replace("axioms=2", "axioms=0")))
        self.refused("it is no whole log", self.log(edit=lambda text: text[:text.index("stamp: log")]))
        self.refused("are not its verdict", self.log(verdict="400 passed, 0 failed"))

    def test_forged(self):
        """Whoever writes a log by hand makes its hash too: the repository at hand tells."""
        self.refused("its crates proved are not those of its commit, as laws", self.log(forged=lambda text: text.replace("rt: laws proved", "rt: lemmas proved")))
        self.refused("its wrong programs refused are not those of its commit, as laws/right", self.log(forged=lambda text: text.replace("laws/wrong.edit", "laws/right.edit")))
        tree = self.stamp("begin").split("tree ")[1].split()[0]
        self.refused("'tree' is", self.log(forged=lambda text: text.replace(tree, "e" * 64)))
        crates = self.stamp("end").split("crates ")[1].split()[0]
        self.refused("'crates' is", self.log(forged=lambda text: text.replace(crates, "e" * 64)))
        self.refused("is not known in this repository", self.log(forged=lambda text: text.replace(self.git("rev-parse", "HEAD"), "f" * 40)))
        self.refused("'definitions' is", self.log(forged=lambda text: text.replace("d" * 64, "e" * 64)))
        self.refused("it does not say that cover was proved", self.log(forged=lambda text: text.replace(VERDICT + "\nlinked files=out/cover.o", "\nlinked files=out/cover.o")))

        self.refused("laws was proved by another logic", self.log(forged=lambda text: text.replace("sum=097e4c862dff5811", "sum=0123456789abcdef", 1)))

    def test_kept(self):
        """A log of a run that took something from an earlier one says of it nothing that could be compared."""
        self.refused("of laws that run took what an earlier one had kept", self.log(forged=lambda text: text.replace("== laws\n", "rt: laws is kept: an earlier run on this machine proved the same files\n== laws\n", 1)))
        self.refused("of laws that run took what an earlier one had kept", self.log(forged=lambda text: text + "rt: laws: 1 of its 1 must-fail edits were tried by an earlier run on this machine\n"))

    # ---- trees
    def test_changed_tree(self):
        write(self.path("crates/laws/src/lib.rt"), "// other laws\n")
        self.refused("it is not of a commit as it stands", self.log())

    def test_change_that_git_is_told_to_pass_over(self):
        for word in ("--assume-unchanged", "--skip-worktree"):
            self.git("update-index", word, "crates/laws/src/lib.rt")
            write(self.path("crates/laws/src/lib.rt"), "// other laws\n")
            self.assertEqual(self.git("status", "--porcelain"), "")
            self.refused("with changes, as in crates/laws/src/lib.rt", self.log())

    def test_file_that_no_commit_has(self):
        write(self.path("crates/laws/specs/More.antt"), "-- more\n")
        self.refused("with changes, as in crates/laws/specs/More.antt", self.log())

    def test_change_on_the_way(self):
        def change():
            write(self.path("crates/laws/src/lib.rt"), "// other laws\n")
            self.commit()
        self.refused("at the start of the run and", self.log(between=change))

    # ---- programs
    def test_replaced_program(self):
        log = self.log()
        write(self.path("crates/cover/out/cover"), "#!/bin/sh\nprintf '%s' '" + BOX.replace("3f80", "3f00") + "'\n", True)
        self.refused("crates/cover/out/cover is not the one that the tests built", log)
        shutil.copy(self.path("crates/cover_rigid/out/cover_rigid"), self.path("crates/cover/out/cover"))
        self.refused("crates/cover/out/cover is not the one that the tests built", log)

    def test_replaced_program_is_not_run_as_proved(self):
        write(self.path("crates/cover/out/cover.stamp"), "a stamp")
        write(self.path("crates/cover/out/cover"), "#!/bin/sh\necho replaced\n", True)
        self.assertEqual(self.command(self.path("tools/proved"), "cover")[:2], (0, "proved\n"))

    # ---- the real library
    def test_library_is_asked(self):
        built = os.path.join(pages.ROOT, "target", "lib", "libjellyplain.so.2.0.0")
        if not os.path.exists(built):
            self.skipTest("there is no " + built)
        example = os.path.join(pages.ROOT, "examples", "slight_scale")
        shutil.copy(example + ".txt", self.file)
        shutil.copy(built, self.path("target/lib/libjellyplain.so.2.0.0"))
        for kind, ending in (("plain", "expected"), ("rigid", "rigid")):
            for name, box in (("cover", "expected"), ("cover_rigid", "rigid")):
                write(self.path("crates/%s/out/%s" % (name, name)), "#!/bin/sh\ncat %s.%s\n" % (example, box), True)
            status, said, reason = self.page(self.log(), "--library", built, kind=kind)
            self.assertEqual((status, reason), (0, ""))
            self.assertIn("asked for this file it answers this cover, in every bit", said)
            # a program of the other kind
            name = "cover" + "_rigid" * (kind == "rigid")
            write(self.path("crates/%s/out/%s" % (name, name)), "#!/bin/sh\ncat %s.%s\n" % (example, "rigid" if kind == "plain" else "expected"), True)
            self.refused("answers another box than the program", self.log(), "--library", built, kind=kind)


if __name__ == "__main__":
    if not shutil.which("git"):
        print("tools/certificate_test.py: skipped, there is no git here")
        sys.exit(0)
    answer = unittest.TextTestRunner(verbosity=0).run(unittest.defaultTestLoader.loadTestsFromTestCase(Certificates))
    if answer.wasSuccessful():
        print("tools/certificate and tools/proved, %d tests: as expected" % answer.testsRun)
    sys.exit(not answer.wasSuccessful())
