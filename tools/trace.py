#!/usr/bin/env python3
"""trace.py CRATE FUNCTION: brings the proof of an interval function that judges nothing in line with its code.

The function works one operation per statement, `let c = interval_unjudged::add_enclosure(a, b);`, in the order in which its formula has them. It may copy fields,
`let x = d.low;`, end with an operation, and call other functions, whose contracts the proof names itself. Its proof is one application of `traced-unjudged`
(crates/interval_unjudged/proofs/Trace.antt) to the contracts of its operations, each by its step's name: `_ c.add_enclosure-d.ensures.value`.
In crates/CRATE/proofs/FUNCTION/Answers.antt this writes the contracts anew, in working order, whether the file still has the word CALLS or what an earlier run wrote in its place.
"""
import re
import sys

if len(sys.argv) != 3:
    sys.exit(__doc__)
crate, function = sys.argv[1:]
source = open(f"crates/{crate}/src/lib.rt").read()
path = f"crates/{crate}/proofs/{function}/Answers.antt"
found = re.search(r"^(?:pub )?fn %s\(.*?\n\{\n(.*?)\n\}\n" % re.escape(function), source, re.S | re.M)
if not found:
    sys.exit(f"no function {function} in crates/{crate}/src/lib.rt")

contracts = []
*statements, last = re.sub(r"//.*", "", found.group(1)).split(";")
for statement in statements + [last]:
    call = re.match(r"\s*(?:let (\w+) = )?interval_unjudged::(\w+)\s*\(", statement)
    if call:
        step = call.group(2) + ("-" + call.group(1) if call.group(1) else "")
        contracts.append(f"_ c.{step}.ensures.value")
proof = open(path).read()
line = r"_ c\.\w+(?:-\w+)?\.ensures\.\w+"
places = re.findall(r"^( *)(?:CALLS|%s(?:\s+%s)*)" % (line, line), proof, flags=re.M)
if len(places) != 1:
    sys.exit(f"{path} has not one place for the contracts")
proof = re.sub(r"^ *(?:CALLS|%s(?:\s+%s)*)" % (line, line), lambda _: "\n".join(places[0] + each for each in contracts), proof, flags=re.M)
open(path, "w").write(proof)
print(f"{path}: {len(contracts)} contracts")
