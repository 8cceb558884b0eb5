#!/usr/bin/env python3
"""Tampers with a copy of the texts that have to be believed, one after the other, and expects tools/trusted --check to name each. A part of tools/test.sh; needs rt for the toolchain's modules."""
import os
import re
import shutil
import subprocess
import sys
import tempfile

import pages

# what is done: file, old text, new text, and what has to be said
TRIALS = {
    "the order emptied": ("crates/rounding/specs/Order.antt", "  pub holds : T (le x y)\n", "", "`◌≼◌`"),
    "the pad dropped": ("crates/motion_pad/specs/Grow.antt", "  pub plus : Inside box (Point3f-plus q pad)", "  pub plus : Inside box q", "`PaddedInside`"),
    "room for the text out of reach": ("crates/motion_answer/specs/Theorem.antt", "longest_text = 72", "longest_text = 4294967296", "`longest_text`"),
    "the guarantee deleted from the library's contract": (
        "crates/api_c/src/lib.rt", "    ensures contains_motion", None, "the clause `contains_motion` of its contract is gone"),
    "the guarantee deleted from the program's contract": (
        "crates/motion_answer/src/lib.rt", "    ensures contains_motion", None, "motion_answer::answer: the clause `contains_motion` of its contract is gone"),
    "a name of the library's contract redirected where it is passed on": (
        "crates/api/specs/Words.antt", "pub use Rattle.chain_rows.specs.Theorem.{Moves-Holds, KeptChainContainsMotion}",
        "pub use Rattle.chain_rows.specs.Theorem.{Moves-Holds}\npub use Rattle.chain_covers.specs.Theorem.{KeptSetContainsMotion as KeptChainContainsMotion}",
        "crates/api_c/src/lib.rt: `KeptChainContainsMotion` is now crates/chain_covers/specs/Theorem.antt as KeptSetContainsMotion's and was crates/chain_rows/specs/Theorem.antt's"),
    "a name of a contract redirected": (
        "crates/chain_cover/src/lib.rt", "ghost use Rattle.chain_rows.specs.Theorem.{KeptChainContainsMotion};",
        "ghost use Rattle.chain_covers.specs.Theorem.{KeptSetContainsMotion as KeptChainContainsMotion};",
        "crates/chain_cover/src/lib.rt: `KeptChainContainsMotion` is now crates/chain_covers/specs/Theorem.antt as KeptSetContainsMotion's and was crates/chain_rows/specs/Theorem.antt's"),
    "a quotation falsified": ("docs/GUARANTEE.md", "→ Built m → BoundsAnswer-refusal c ≡ 0 → T (not (is_nan time)) → Inside b p", "→ Built m → Inside b p", "what it quotes of `CoverContainsMotion`"),
    "a quoted contract falsified": ("docs/GUARANTEE.md", "ensures value { result ≡ AnimatedTransform-cover m b depth }", "ensures value { result ≡ AnimatedTransform-cover m b 12 }", "what it quotes of `cover`"),
    "a name of a definition redirected": (
        "crates/motion_cover/specs/Theorem.antt", "use Rattle.std.specs.Prelude.{◌≡◌, not, T, Float}", "use Rattle.std.specs.Prelude.{◌≡◌, T as not, T, Float}",
        "crates/motion_cover/specs/Theorem.antt: `not` is now lib.Dec as T's and was mathlib.Core.Bool's"),
    "a library redirected where it is handed on": (
        "crates/stored_box/specs/Lib.antt", "pub use Rattle.bounds_query.specs.bounds3\n", "pub use Rattle.bounds_query.specs.transform as bounds3\n", "crates/transform/specs/Inside.antt: No such file"),
    "a library's proofs handed on with definitions": (
        "crates/stored_box/specs/Lib.antt", "pub use Rattle.bounds_query.specs.bounds3\n", "pub use Rattle.bounds_query.proofs as bounds3\n", "the toolchain has no such module"),
    "a function called by a name of a list forgotten": (
        "crates/day/src/main.rt", "use question_lines::{find, part, same};", "use question_lines::{find, part};", "question_lines::same: the clause `signature` of its contract is gone"),
    "a name brought from a crate's proofs": (
        "crates/chain_cover/src/lib.rt", "ghost use Rattle.chain_rows.specs.Finer.{KeptChainFiner};", "ghost use Rattle.chain_rows.specs.Finer.{KeptChainFiner};\nghost use Rattle.chain_rows.proofs.Kept.{kept-cover};",
        "crates/chain_cover/src/lib.rt uses Rattle.chain_rows.proofs.Kept.{kept-cover}, which no promise may rest on"),
    "a name hidden by a definition": (
        "crates/motion_chain/specs/Theorem.antt", "abbrev pub ChainContainsMotion", "abbrev pub is_nan : Float → Bool\nis_nan x = true\n\nabbrev pub ChainContainsMotion",
        "crates/motion_chain/specs/Theorem.antt: the definition `is_nan` is reached now"),
    "a definition hidden in a comment": (
        "crates/rounding/specs/Order.antt", "pub record ◌≼◌ (x y : Float) : Type 0 where\n  pub holds : T (le x y)\n",
        "pub record ◌≼◌ (x y : Float) : Type 0 where\n\n{-\npub record ◌≼◌ (x y : Float) : Type 0 where\n  pub holds : T (le x y)\n-}\n", "a form that could hide a text"),
    "a contract hidden by another": (
        "crates/chain_cover/src/lib.rt", "pub fn cover(", "pub fn cover(rows: u8) -> u8 {\n    rows\n}\n\npub fn cover(", "a second `cover`"),
    "a name brought twice": (
        "crates/chain_cover/src/lib.rt", "ghost use Rattle.chain_rows.specs.Finer.{KeptChainFiner};",
        "ghost use Rattle.chain_rows.specs.Finer.{KeptChainFiner};\nghost use Rattle.std.specs.Prelude.{eqb as ◌≡◌};", "a second `◌≡◌`"),
    "a name brought behind another line": (
        "crates/chain_cover/src/lib.rt", "ghost use Rattle.chain_rows.specs.Theorem.{KeptChainContainsMotion};",
        "ghost use Rattle.chain_rows.specs.Theorem.{KeptChainContainsMotion}; ghost use lib.Dec.{T as KeptChainFiner};", "a form that could hide a text"),
    "a name brought behind a list over lines": (
        "crates/chain_cover/src/lib.rt", "ghost use Rattle.chain_rows.specs.Theorem.{KeptChainContainsMotion};",
        "ghost use Rattle.chain_rows.specs.Theorem.{\n    KeptChainContainsMotion\n}; ghost use lib.Dec.{T as KeptChainFiner};", "a form that could hide a text"),
    "a name by its whole path": (
        "crates/motion_cover/specs/Theorem.antt", "T (not (is_nan time))", "T (Rattle.std.specs.Prelude.not (is_nan time))", "by its whole path"),
    "all names of a module": (
        "crates/motion_cover/specs/Theorem.antt", "use Rattle.std.specs.Prelude.{◌≡◌, not, T, Float}", "use Rattle.std.specs.Prelude.{◌≡◌, not, T, Float}\nuse Below.*", "a `use` whose names can't be told"),
    "a name through another module's": (
        "crates/motion_cover/specs/Theorem.antt", "use Rattle.std.specs.Prelude.{◌≡◌, not, T, Float}", "use Rattle.std.specs.Prelude.{◌≡◌, T, Float}\nuse mathlib.Core as Core\nuse Core.{Bool.not}",
        "a `use` whose names can't be told"),
    "a module below another": ("crates/motion_cover/specs/Theorem.antt", "use Rattle.std.specs.Prelude", "pub mod Below\nuse Rattle.std.specs.Prelude", "a form that is not known"),
    "a program's own line": ("crates/cover/src/main.rt", "answer(false", "answer(true", "the program cover has changed"),
    "an operator that binds otherwise": ("crates/float32/specs/Operators.antt", "infixl 75 ◌⊕◌ ◌⊖◌", "infixl 85 ◌⊕◌ ◌⊖◌", "`◌⊕◌`"),
    "a struct with a field more": ("crates/bounds3/src/lib.rt", "pub struct Point3f {", "pub struct Point3f {\n    pub w: f32,", "`Point3f`"),
    "the list itself edited": ("docs/DEFINITIONS.md", None, "`◌≼◌` ", "`◌≼◌`"),
}
# modules of the toolchain, one that defines and one that passes on, and their files
TOOLCHAINS = {"lib.Ieee": "rattle/logic/Lib/Ieee.antt", "Rattle.core.specs.Prelude": "rattle/core/specs/Prelude.antt"}


def read(path):
    with open(path, encoding="utf-8") as file:
        return file.read()


def write(path, text):
    with open(path, "w", encoding="utf-8") as file:
        file.write(text)


def said(root, **environment):
    run = subprocess.run([os.path.join(root, "tools", "trusted"), "--check"], stderr=subprocess.PIPE, env={**os.environ, **environment}, check=False)
    return run.returncode, run.stderr.decode()


def tampered(text, old, new):
    """The text with that change: an old text without a new one is a clause to be deleted, a new text without an old one is a name whose hash becomes another."""
    if old is None:
        return re.sub("(?<=%s)\\w{16}" % re.escape(new), "0123456789abcdef", text, count=1)
    if new is None:
        return re.sub(r"%s.*?\n(?=    ensures|\{)" % re.escape(old), "", text, count=1, flags=re.S)
    return text.replace(old, new, 1)


def other_toolchain(folder, module):
    """A toolchain with one other module: links to the one at hand but for that."""
    home = os.environ.get("RATTLE_HOME") or os.path.dirname(subprocess.run(["rt", "doc"], stdout=subprocess.PIPE, check=True).stdout.decode().strip())
    place, parts = "", module.split("/")
    for part in parts:
        os.makedirs(os.path.join(folder, place))
        for entry in os.listdir(os.path.join(home, place)):
            if entry != part:
                os.symlink(os.path.join(home, place, entry), os.path.join(folder, place, entry))
        place = os.path.join(place, part)
    write(os.path.join(folder, place), read(os.path.join(home, place)) + "\n")
    return folder


def main():
    missed = 0
    with tempfile.TemporaryDirectory() as folder:
        root = os.path.join(folder, "copy")
        os.makedirs(root)
        for name in ("docs", "tools"):
            shutil.copytree(os.path.join(pages.ROOT, name), os.path.join(root, name), ignore=shutil.ignore_patterns("__pycache__"))
        shutil.copytree(os.path.join(pages.ROOT, "crates"), os.path.join(root, "crates"), ignore=shutil.ignore_patterns("proofs", "must-fail", "wrong", "out"))
        shutil.copy(os.path.join(pages.ROOT, "crates.txt"), root)
        status, words = said(root)
        if status:
            print(words, end="")
            return "tools/trusted_test.py: the copy does not pass before anything is tampered with"
        for what, (name, old, new, expected) in TRIALS.items():
            path = os.path.join(root, name)
            text = read(path)
            if tampered(text, old, new) == text:
                print("%s: there is nothing to tamper with in %s" % (what, name))
                missed += 1
                continue
            write(path, tampered(text, old, new))
            status, words = said(root)
            if status not in (1, 2) or expected not in words:
                print("%s: status %d, and not named:\n%s" % (what, status, words))
                missed += 1
            write(path, text)
        for number, (name, file) in enumerate(TOOLCHAINS.items()):
            status, words = said(root, RATTLE_HOME=other_toolchain(os.path.join(folder, "toolchain%d" % number), file))
            if status != 1 or "the toolchain's module %s has changed" % name not in words:
                print("another %s: status %d, and not named:\n%s" % (name, status, words))
                missed += 1
    trials = len(TRIALS) + len(TOOLCHAINS)
    print("tools/trusted --check: %d of %d tampered copies are named" % (trials - missed, trials))
    return 1 if missed else 0


if __name__ == "__main__":
    sys.exit(main())
