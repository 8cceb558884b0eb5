#!/usr/bin/env python3
"""Brings the repository's own definitions and lemmas to the spelling of today's Rattle.

usage: tools/respell.py [--list]        at the top of the repository, once, after the toolchain's port.py

    minNum, Bounds3f·unionBounds, digitValue-bound  ->  min_num, Bounds3f-union_bounds, digit_value-bound

A word is in snake case, a type keeps its capital, and a dash joins a type to a name. What src/ declares, strings, inputs and outputs keep
their spelling. Where a new name would fall together with one that stands already, the script says so and writes nothing.
--list prints the old and the new names and writes nothing.
"""

import collections
import os
import re
import sys

NAME = r"[^\s(){}.;,@\"«»\[\]\\:=`]+"
DECLARED = re.compile(rf"^\s*(?:(?:pub|abbrev|unfoldable|opaque|record|data|mutual)\s+)*({NAME})\s+(?:\([^)]*\)\s+|\{{[^}}]*\}}\s+)*:(?!=)", re.M)
# Variables, and names given by 'as'.
BOUND = "padAt refusedBy fitsFormat fewRows inShare inWhole inCoarse fineBox hasRotation Words·part".split()
RECORD = re.compile(rf"^\s*(?:pub\s+)?(?:record|data)\s+({NAME})", re.M)
def snake(word):
    """One part of a name: a type keeps its capital, and any other word is in snake case."""
    if not re.match(r"[a-z]", word):
        return word
    return re.sub(r"(?<=[a-z0-9'])([A-Z])", lambda m: "_" + m[1].lower(), word)


def respelled(name):
    out = []
    for part in re.split(r"([-·])", name):
        out.append("-" if part == "·" else part if part == "-" else snake(part))
    return "".join(out)


def files(tops, endings):
    for top in tops:
        if os.path.isfile(top):
            yield top
        for folder, dirs, names in os.walk(top):
            dirs[:] = sorted(d for d in dirs if d not in ("out", "target", ".git", "__pycache__"))
            for n in sorted(names):
                if n.endswith(endings):
                    yield os.path.join(folder, n)


def read(path):
    with open(path, encoding="utf-8", newline="") as f:
        return f.read()


def code(text, mark):
    """The text without its comments and strings."""
    return re.sub(r"\"(?:[^\"\\\n]|\\.)*\"|" + re.escape(mark) + r"[^\n]*", " ", text)


def main(argv):
    antt = list(files(["crates"], (".antt",)))
    names = set(BOUND)
    for path in antt:
        text = code(read(path), "--")
        names |= set(DECLARED.findall(text)) | set(RECORD.findall(text))
    turned = {n: respelled(n) for n in names if respelled(n) != n and re.search(r"[a-z]{2}", n) and not re.fullmatch(r"[a-z][A-Z]\w?'?", n)}
    if "--list" in argv:
        for old, new in sorted(turned.items()):
            print(old, new)
    # What would fall together: two names of one file, where the new one is no field of a record.
    said = 0
    for new, count in sorted(collections.Counter(turned.values()).items()):
        if count > 1:
            print("falls together:", new, *sorted(n for n in turned if turned[n] == new))
            said += 1
    token = re.compile(rf"(?<![\w·'.-])({NAME})(?!\s*=)")
    for path in antt:
        seen = set(token.findall(code(read(path), "--")))
        for old in sorted(seen & set(turned)):
            if turned[old] in seen:
                print("stands already:", turned[old], old, path)
                said += 1
    parameter = re.compile(r"(?:\b(?:let(?: mut)?|mut|for)\s+|[(,]\s*(?:mut\s+)?|\|\s*)([a-z_][a-z0-9_]*)\s*(?::|=|\bin\b)")
    for path in files(["crates"], (".rt",)):
        text = read(path)
        used = {turned[t] for t in re.findall(NAME, text) if t in turned}
        for p in set(parameter.findall(text)) & used:
            print("hides:", p, path)
            said += 1
    if "--list" in argv or said:
        return 1 if said else 0
    whole = re.compile(r"(?<![\w·'-])(" + "|".join(sorted(map(re.escape, turned), key=len, reverse=True)) + r")(?![\w·'-])")
    count = 0
    for path in [*files(["crates"], (".antt", ".rt", ".edit")), *files(["docs", "README.md", "CHANGELOG.md", "crates.txt", "tools", "c", "rust", "python", "oracle", "compare", "bench"], (".md", ".txt", ".py", ".h", ".rs", ".c", ".sh", ""))]:
        if path.endswith(("respell.py", "PORT.md", ".svg", ".png")) or "/stdin" in path or "/stdout" in path:
            continue
        try:
            old = read(path)
        except UnicodeDecodeError:
            continue
        if path.endswith((".antt", ".edit")):
            parts = re.split(r"(\"(?:[^\"\\\n]|\\.)*\")", old)
            new = "".join(p if i % 2 else whole.sub(lambda m: turned[m[1]], p) for i, p in enumerate(parts))
        elif path.endswith(".rt"):
            new = whole.sub(lambda m: turned[m[1]], old)
        else:
            # In pages and tools a name is turned where it can be no other word.
            new = whole.sub(lambda m: turned[m[1]] if "·" in m[1] or re.search(r"[a-z][A-Z]", m[1]) else m[0], old)
        if new != old:
            with open(path, "w", encoding="utf-8", newline="") as f:
                f.write(new)
            count += 1
    print(f"{len(turned)} names respelled in {count} files")
    return 0


if __name__ == "__main__":
    raise SystemExit(main(sys.argv[1:]))
