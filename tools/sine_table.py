#!/usr/bin/env python3
"""The sine table of crate sine_table, worked out with exact integers.

T[i] is 2^30 times the sine's Taylor sum through the 15th power at x = i * Q / 2048 units of 2^-28, plus a half, rounded down; Q is a quarter turn.

    tools/sine_table.py            writes the constant SINE_TABLE in src/lib.rt anew
    tools/sine_table.py --check    says whether it is what it would write, and holds the table to its ends and its strict rise
"""
import os
import re
import sys
from math import factorial

QUARTER_TURN = 421657428
ENTRIES = 2049
CODE = os.path.join(os.path.dirname(os.path.abspath(__file__)), "..", "crates", "sine_table", "src", "lib.rt")
CONSTANT = re.compile(r"^const SINE_TABLE: \[u32; \d+\] = \[\n.*?^\];\n", re.MULTILINE | re.DOTALL)


def entry(i):
    """x = a / b; all terms stand over the one denominator 15! * b^15."""
    a, b = i * QUARTER_TURN, 2048 * 2**28
    total = sum((-1) ** (n // 2) * (factorial(15) // factorial(n)) * a**n * b ** (15 - n) for n in range(1, 16, 2))
    whole = factorial(15) * b**15
    return (2**31 * total + whole) // (2 * whole)


def main():
    if sys.argv[1:] not in ([], ["--check"]):
        sys.exit(__doc__)
    table = [entry(i) for i in range(ENTRIES)]
    faults = []
    if table[0] != 0 or table[-1] != 2**30 or not all(a < b for a, b in zip(table, table[1:])):
        faults.append("the table's ends or its rise")
    with open(CODE, encoding="utf-8") as f:
        old = f.read()
    constant = "const SINE_TABLE: [u32; %d] = [\n%s];\n" % (ENTRIES, "".join("    %d,\n" % t for t in table))
    new, found = CONSTANT.subn(constant, old)
    if found != 1:
        faults.append("src/lib.rt has %d constants SINE_TABLE" % found)
    elif not sys.argv[1:]:
        with open(CODE, "w", encoding="utf-8") as f:
            f.write(new)
    elif new != old:
        faults.append("the constant in src/lib.rt")
    for fault in faults:
        print("wrong: " + fault)
    if not faults:
        print("%d entries" % len(table))
    sys.exit(1 if faults else 0)


main()
