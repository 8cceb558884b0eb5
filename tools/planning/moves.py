"""Each boom's chain as a move file, the floats that the controller is to be given, with the frame and the clock that they stand in."""
import os
import re

from jellyplain import Refused
from planning.ending import bad, numbered, one_line
from planning.library import bounds
from planning.numbers import exact_text
from planning.output import Plain


def file_names(answers):
    """A name for each boom's file, and for each further box of a boom: what isn't a letter, a digit or - is _, and no name is there twice."""
    taken = set()
    for answer in answers.booms:
        for k in range(len(answer.boxes)):
            stem = re.sub("[^A-Za-z0-9-]", "_", answer.boom.name) + (".%d" % (k + 1) if k else "")
            name = next(n for n in (stem, *("%s_%d" % (stem, i) for i in range(2, len(taken) + 3))) if n.lower() not in taken)
            taken.add(name.lower())
            yield answer, k, name + ".txt"


def write_moves(answers, folder):
    """Writes the files to a folder and returns a record for each."""
    records = []
    try:
        os.makedirs(folder, exist_ok=True)
        for answer, k, name in file_names(answers):
            with open(os.path.join(folder, name), "wb") as file:
                file.write(answer.spray.write(bounds(answer.boxes[k])))
            x, y, z = [Plain(exact_text(v)) for v in answer.origin]
            records.append({"file": name, "boom": answer.boom.name, "box": "box %d" % (k + 1), "kind": "rigid" if answer.boom.rigid else "plain",
                            "x": x, "y": y, "z": z, "clock": Plain(exact_text(answer.own))})
    except (OSError, ValueError) as problem:
        raise bad("%s: %s" % (one_line(folder), getattr(problem, "strerror", None) or "it can't be written"))
    except Refused as refusal:
        raise numbered(refusal.number)
    return records
