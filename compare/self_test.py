#!/usr/bin/env python3
"""Shows that compare/run sees a wrong side: the oracle stands on both sides, with one answer changed.

  self_test.py [KIND..]   runs every trial, or those of some kinds, and says what was seen; status 0 if all was as it should be

With WRONG in the environment it is itself the program that answers: the one behind it, and then the changes that WRONG names. In the place of `cover`, or under the
name of `rewrite` or `stretch`, it is the oracle, with tools/move_files.py for a reader.
"""
import os
import re
import struct
import subprocess
import sys
import tempfile

HERE = os.path.dirname(os.path.realpath(__file__))
ROOT = os.path.dirname(HERE)
ORACLE = os.path.join(ROOT, "oracle/target/release/answers")
CHAIN_ORACLE = os.path.join(ROOT, "oracle/target/release/chain_answers")

WORDS = {
    "numbers": "abs root least greatest lerp clamp whole",
    "angles": "sin cos acos",
    "matrices": "inverse mul quat rotation dot normalize slerp decompose",
    "boxes": "bounds",
    "moves": "parts point interp",
    "bounds": "motion pmotion",
    "motion": "motion pmotion zeros",
    "covers": "cover",
    "chains": "chain lone cpoint ctimes ccover cpad cinterp cparts cmotion cpmotion",
    "rigid": "chain lone cpoint ctimes ccover cinterp cparts cmotion cpmotion",
    "sets": "chain cset ccover",
    "texts": "chain write read",
    "trials": "chain try ccover",
    "joins": "chain join ctimes",
    "stretches": "stretch",
    "arcs": "acosn",
    "reach": "chain cut",
}


# ---- the wrong program

def first_time(name):
    """True once in a trial, whichever process asks."""
    try:
        os.close(os.open(os.path.join(os.environ["TRIAL"], name), os.O_CREAT | os.O_EXCL))
        return True
    except FileExistsError:
        return False


def other_digit(answer):
    return answer[:-1] + (b"1" if answer[-1:] == b"0" else b"0")


def wider(answer):
    """A box with its last coordinate half as far out again, or of zero one further."""
    z = float_of(answer[-8:])
    return answer[:-8] + float_bits(max(1.5 * z, 0.5 * z) if 0 < abs(z) < 1e38 else 1.0)


def float_bits(x):
    return struct.pack(">f", x).hex().encode()


def float_of(word):
    return struct.unpack(">f", bytes.fromhex(word.decode()))[0]


def boxes_in(answer):
    """The boxes of an answer, each six words: of a set the union comes first."""
    words = answer.split()[1:]
    return [words[i:i + 6] for i in range(0, len(words), 6)]


def answer_of(boxes):
    return b" ".join([b"ok"] + [word for box in boxes for word in box])


def masks_answer(masks):
    return b" ".join([b"ok"] + [b"%016x" % mask for mask in masks])


def union(boxes):
    return [(min if i < 3 else max)((box[i] for box in boxes), key=float_of) for i in range(6)]


def written_otherwise(answer, place):
    """The answer to `write` with another digit at a place of the text."""
    ok, length, text = answer.split()
    return b" ".join([ok, length, text[:2 * place] + (b"31" if text[2 * place:2 * place + 2] == b"30" else b"30") + text[2 * place + 2:]])


def without_pads(text):
    """A move file with the old thirteen names, whatever its pads were."""
    lines = text.split(b"\n")
    return b"\n".join(line.rsplit(b" ", 1)[0] if i < len(lines) - 3 else line for i, line in enumerate(lines))


def changed(change, question, answer):
    values = question.decode(errors="replace").split(" ")
    word = values[0]
    if change == word and answer.startswith(b"ok ") and answer[-8:] != b"7fc00000":
        # A cover is made wider, so that a finer one still lies in it.
        other = wider if word in ("cover", "ccover", "cset", "try") else other_digit
        return other(answer) if first_time(change) else answer
    if change == "built" and word in ("move", "chain") and answer.startswith(b"ok"):
        return b"refused 5" if first_time(change) else answer
    if change == "too_long" and word == "chain" and answer == b"refused 12" and len(values) == 3 + 33 * 18:
        return b"ok 33" if first_time(change) else answer
    if change == "falling" and word == "ctimes" and answer == b"refused 13":
        return b"ok" + b" 00000000" * int(values[2]) if first_time(change) else answer
    if change == "list_outside" and word == "ctimes" and answer.startswith(b"ok "):
        return answer[:-8] + float_bits(3.4e38)
    if change == "refusal" and answer.startswith(b"refused"):
        return other_digit(answer) if first_time(change) else answer
    if change == "unanswered" and word in ("point", "cpoint"):
        return b"refused 5"
    if change == "list_unanswered" and word == "ctimes":
        return b"refused 5"
    if change == "box_zeros" and word in ("motion", "pmotion", "bounds", "cmotion", "cpmotion"):
        return re.sub(rb"\b[08]0000000\b", lambda zero: b"80000000" if zero[0] == b"00000000" else b"00000000", answer)
    is_of_zero = change == "point_zero" and word in ("point", "cpoint") or change == "cover_zero" and word in ("cover", "ccover", "cset", "try", "wcover")
    if is_of_zero and b" 00000000" in answer:
        return answer.replace(b" 00000000", b" 80000000", 1) if first_time(change) else answer
    if change == "other_time" and word == "write" and answer.startswith(b"ok "):
        # The last digit of the first pose's time.
        return written_otherwise(answer, 64)
    if change == "other_pad" and word == "write" and answer.startswith(b"ok "):
        # The last digit of the first pose's pad.
        return written_otherwise(answer, 57 + 124)
    if change == "pads_left_out" and word == "write" and answer.startswith(b"ok "):
        return b" ".join([b"ok", answer.split()[1], without_pads(bytes.fromhex(answer.split()[2].decode())).hex().encode()])
    if change == "wide_pad" and word == "cpad" and answer.startswith(b"ok "):
        return b"ok " + float_bits(min(1.5 * float_of(answer[3:]) + 1e-3, 3.4e38))
    if change == "pad_unanswered" and word == "cpad":
        return b"refused 5"
    if change == "sixteen" and word in ("chain", "lone") and answer == b"refused 16":
        return b"ok 2" if first_time(change) else answer
    if (change, answer) in (("seventeen", b"refused 17"), ("eighteen", b"refused 18")):
        return b"ok 2" if first_time(change) else answer
    if change == "nineteen" and word == "try" and answer == b"refused 19":
        return b"refused 12" if first_time(change) else answer
    if change == "tried_otherwise" and word == "try" and answer.startswith(b"ok "):
        return wider(answer)
    if change == "twenty" and word == "join" and answer == b"refused 20":
        return b"refused 12" if first_time(change) else answer
    if change == "joined_wider" and word == "ccover" and values[1] in ("2", "3") and answer.startswith(b"ok "):
        return wider(answer)
    if change == "twenty_one" and answer == b"refused 21":
        return b"refused 12" if first_time(change) else answer
    if word == "windows" and answer.startswith(b"ok "):
        places, depth = answer.split()[2:], int(values[3])
        if change == "left_off" and places:
            return b" ".join([b"ok", b"%d" % (len(places) - 1)] + places[:-1])
        if change == "windows_added" and depth > 2:
            count = len(values) - 17
            return b" ".join([b"ok", b"%d" % count] + [b"%d" % place for place in range(count)])
    if change == "window_narrow" and word == "wcover" and answer.startswith(b"ok "):
        return answer_of([box[:3] * 2 for box in boxes_in(answer)])
    if change == "nan_bits":
        return answer.replace(b"7fc00000", b"ffc12345")
    if change == "many_boxes" and word == "cset" and answer == b"refused 14" and len(values) == 3 + 17 * 6:
        return b"ok 00000000" if first_time(change) else answer
    if word == "cset" and answer.startswith(b"ok"):
        all_boxes, covers = boxes_in(answer)[0], boxes_in(answer)[1:]
        if change == "union_short" and len(covers) > 1:
            return answer_of([union(covers[:-1])] + covers)
        if change == "first_for_all":
            return answer_of([all_boxes] + [covers[0]] * len(covers))
        if change == "last_missing" and len(covers) > 1:
            return answer_of([all_boxes] + covers[:-1])
    if change == "row_left_off" and word == "rows" and answer.startswith(b"ok "):
        places = answer.split()[2:]
        return b" ".join([b"ok", b"%d" % (len(places) - 1)] + places[:-1]) if places else answer
    if word == "reach" and answer.startswith(b"ok "):
        masks, depth, windows = [int(mask, 16) for mask in answer.split()[1:]], int(values[2]), int(values[4]) - 1
        every = 2 ** windows - 1
        if change == "row_dry":
            return masks_answer(mask & (mask - 1) for mask in masks)
        if change == "next_window":
            return masks_answer(mask << 1 & every for mask in masks)
        if change == "every_window":
            return masks_answer(every if mask else 0 for mask in masks)
        if change == "rows_added" and depth > 2:
            return masks_answer(every for mask in masks)
        if change == "deep_refused" and depth > 2:
            return b"refused 10"
        if change == "one_row_short" and len(masks) > 1:
            return masks_answer(masks[:-1])
    if change == "windows_passed_over" and word == "reach" and answer in (b"refused 5", b"refused 10"):
        return masks_answer([0] * int(values[5]))
    if change == "other_refusal" and word == "reach" and answer in (b"refused 5", b"refused 10"):
        return b"refused 5" if answer == b"refused 10" else b"refused 10"
    if word == "cut" and answer.startswith(b"ok "):
        parts = boxes_in(answer)
        if change == "part_missing" and len(parts) > 1:
            return answer_of(parts[:-2] + [parts[-2]] * 2)
        if change == "parts_apart" and len(parts) > 1:
            return answer_of([parts[0][:3] * 2] + parts[1:])
        if change == "parts_wider":
            return answer_of([box[:5] + [float_bits(min(float_of(box[5]) + 1 + abs(float_of(box[5])), 3.4e38))] for box in parts])
    if word == "day" and answer.startswith(b"ok"):
        if change == "all_at_once":
            return b"ok" + b" 0" * (len(answer.split()) - 1)
        if change == "one_late":
            return answer + b"0000"
    if word in ("cover", "ccover", "cset") and answer.startswith(b"ok"):
        depth, boxes = int(values[1 if word == "cover" else 2]), boxes_in(answer)
        if change == "narrow":
            return answer_of([box[:3] * 2 for box in boxes])
        if change == "growing":
            return answer_of([[b"ff7fffff"] * 3 + [b"7f7fffff"] * 2 + [float_bits(3.3e38 + 1e35 * depth)]] * len(boxes))
        if change == "growing_union" and word == "cset":
            return answer_of([[b"ff7fffff"] * 3 + [b"7f7fffff"] * 2 + [float_bits(3.3e38 + 1e35 * depth)]] + boxes[1:])
        if change == "shallow" and depth > 2:
            return b"refused 10"
    return answer


def asked_otherwise(changes, asked, given):
    """The questions that a program with a wrong idea of chains would ask the right one, and the place of each answer among its answers."""
    stream, places, chains = [], [], {}
    for question, answer in zip(asked, given):
        words = question.split(b" ")
        if words[0] == b"chain" and answer != b"error":
            chains[words[1]] = words if answer.startswith(b"ok") else None
        chain = chains.get(words[1]) if len(words) > 1 else None
        if words[0] == b"lone":
            chain = chains[words[1]] = None
        if "slots_kept" in changes and words[0] in (b"chain", b"lone") and answer.startswith(b"refused"):
            # Asked about in a slot that no question has.
            words[1] = b"4"
        if "last_refused" in changes and words[0] == b"cset" and answer.startswith(b"refused"):
            words[3:] = [word for i in range(len(words) - 6, 2, -6) for word in words[i:i + 6]]
        if words[0] == b"reach" and answer.startswith(b"ok"):
            boxes, ticks = int(words[3]), int(words[4])
            if "first_box" in changes:
                words[3:6 + 6 * boxes] = [b"1"] + words[4:6] + words[6:12]
            if "rows_shrunk" in changes:
                # Touching is no meeting: each row without its faces, where it has an inside.
                first = 6 + 6 * boxes + ticks
                words[first:] = [word for i in range(first, len(words), 6) for word in shrunk(words[i:i + 6])]
        if "all_plain" in changes and words[0] in (b"chain", b"lone") and answer.startswith(b"ok"):
            words[2] = b"plain"
        if "one_slot" in changes and len(words) > 1 and words[1] in (b"0", b"1", b"2", b"3"):
            words[1] = b"0"
        question = b" ".join(words)
        if chain and "covers_unpadded" in changes and words[0] in (b"ccover", b"cset", b"wcover", b"reach"):
            unpadded = [b"00000000" if i > 3 and (i - 3) % 18 == 17 else word for i, word in enumerate(chain)]
            stream += [b" ".join(unpadded), question, b" ".join(chain)]
            places.append(len(stream) - 2)
        elif chain and ("first_move_points" in changes and words[0] == b"cpoint" or "first_move_covers" in changes and words[0] == b"ccover"):
            stream += [b" ".join(chain[:3 + 2 * 18]), question, b" ".join(chain)]
            places.append(len(stream) - 2)
        else:
            stream.append(question)
            places.append(len(stream) - 1)
    return stream, places


def shrunk(box):
    """A box with each face moved inwards by the least, where that leaves something of it."""
    least, greatest = [stepped(word, True) for word in box[:3]], [stepped(word, False) for word in box[3:]]
    return [word for words in zip(*[(low, high) if float_of(low) <= float_of(high) else (box[i], box[i + 3])
                                    for i, (low, high) in enumerate(zip(least, greatest))]) for word in words]


def stepped(word, up):
    """The next float above or below."""
    bits = int(word, 16)
    if bits & 0x7fffffff == 0:
        return b"00000001" if up else b"80000001"
    return b"%08x" % (bits + (1 if (bits >> 31 == 0) == up else -1))


CHAIN_CHANGES = {"first_box", "rows_shrunk", "all_plain", "covers_unpadded", "slots_kept", "one_slot", "first_move_points", "first_move_covers", "last_refused"}


def answers_to(questions, arguments=()):
    text = b"".join(question + b"\n" for question in questions)
    return subprocess.run([os.environ["BEHIND"], *arguments], input=text, stdout=subprocess.PIPE, check=True).stdout.splitlines()


def answers(changes):
    asked = [line for line in sys.stdin.buffer.read().split(b"\n") if line and not line.startswith(b"#")]
    given = answers_to(asked)
    if CHAIN_CHANGES & set(changes):
        stream, places = asked_otherwise(changes, asked, given)
        otherwise = answers_to(stream)
        given = [answer if answer.startswith(b"refused") and question.startswith((b"chain ", b"lone ")) else otherwise[place]
                 for question, answer, place in zip(asked, given, places)]
    for change in changes:
        given = [changed(change, question, answer) for question, answer in zip(asked, given)]
    if "missing" in changes and first_time("missing"):
        given.pop()
    if "too_many" in changes and first_time("too_many"):
        given.append(b"ok")
    sys.stdout.buffer.write(b"".join(answer + b"\n" for answer in given))
    if "failure" in changes and first_time("failure"):
        sys.exit(1)


def poses_and_box(data, has_pads=True):
    """The poses and the box of a file, None for one that departs from the layout."""
    sys.path.insert(0, os.path.join(ROOT, "tools"))
    import move_files
    bits = move_files.read(data)
    if bits is None:
        return None
    words = [b"%08x" % b for b in bits]
    poses = [b" ".join(words[i:i + 13] + [b"00000000"] * 3 + [b"3f800000", words[i + 13] if has_pads else b"00000000"]) for i in range(0, len(words) - 6, 14)]
    return poses, words[-6:]


def answer_of_file(data, question, has_pads=True):
    """The answer to a question about a file's chain and box, or to building the chain where it is refused."""
    read = poses_and_box(data, has_pads)
    if read is None:
        return b"refused 11"
    poses, box = read
    built, answer = answers_to([b" ".join([b"chain 0 plain"] + poses), b" ".join([question] + box)], ["--any-length"])
    return answer if built.startswith(b"ok") else built


def rewrite(change):
    answer = answer_of_file(sys.stdin.buffer.read(), b"write 0 65536")
    printed = bytes.fromhex(answer.split()[2].decode()) if answer.startswith(b"ok") else answer.replace(b" ", b"\n") + b"\n"
    if change in ("wrong_text", "old_names") and answer.startswith(b"ok") and first_time("text"):
        printed = printed[:-1] + b" \n" if change == "wrong_text" else without_pads(printed)
    sys.stdout.buffer.write(printed)


def stretch(change):
    read = poses_and_box(sys.stdin.buffer.read())
    built, run = answers_to([b" ".join([word] + read[0]) for word in (b"chain 0 plain", b"stretch plain")], ["--any-length"]) if read else [b"refused 11"] * 2
    printed = built.replace(b" ", b"\n") + b"\n" if built.startswith(b"refused") else b"accepted\n"
    if built.startswith(b"refused") and run.startswith(b"ok"):
        place, length = map(int, run.split()[1:])
        if change == "wrong_lines" and first_time("lines"):
            place += 1
        printed += b"lines %d to %d\n" % (place + 2, place + length + 1)
    sys.stdout.buffer.write(printed)


def cover(change):
    answer = answer_of_file(sys.stdin.buffer.read(), b"ccover 0 10", change != "no_pads")
    is_wrong = change == "wrong_file"
    printed = b"x0 y0 z0 x1 y1 z1\n" + answer[3:] + b"\n" if answer.startswith(b"ok") else answer.replace(b" ", b"\n") + b"\n"
    if is_wrong and (printed.startswith(b"x0") and first_time("box") or printed.startswith(b"refused") and first_time("number")):
        printed = other_digit(printed[:-1]) + b"\n"
    if change == "zero_file" and printed.startswith(b"x0") and b"00000000" in printed and first_time("zero"):
        printed = printed.replace(b"00000000", b"80000000", 1)
    sys.stdout.buffer.write(printed)


# ---- the trials

SIDES = {"--answers": ORACLE, "--oracle": ORACLE, "--chain-answers": CHAIN_ORACLE, "--chain-oracle": CHAIN_ORACLE}
BOTH, BOTH_OF_CHAINS = ("--answers", "--oracle"), ("--chain-answers", "--chain-oracle")


def trial(title, kind, changes, different, shown=(), sides=None, cases=40):
    """`different` is how many differences are to be told; None for some. The changes are on some sides, or on the project's alone."""
    if len(sys.argv) > 1 and not set(kind.split(",")) & set(sys.argv[1:]):
        return None
    is_of_chains = kind in ("chains", "rigid", "sets", "texts", "trials", "joins", "stretches", "windows", "arcs", "days", "rows", "reach", "files")
    sides = sides or ("--chain-answers" if is_of_chains else "--answers",)
    with tempfile.TemporaryDirectory() as folder:
        command = [os.path.join(HERE, "run"), "--no-build", "--kinds", kind, "--moves", str(cases), "--chains", str(cases), "--files", str(cases), "--show", "100"]
        for side, program in SIDES.items():
            command += [side, os.path.abspath(__file__) if side in sides and kind != "files" else program]
        command += ["--cover", os.path.abspath(__file__)]
        for name in ("rewrite", "stretch"):
            program = os.path.join(folder, "programs", name)
            os.makedirs(os.path.dirname(program), exist_ok=True)
            os.symlink(os.path.abspath(__file__), program)
            command += ["--" + name, program]
        environment = dict(os.environ, WRONG=" ".join(changes), TRIAL=folder, BEHIND=CHAIN_ORACLE if is_of_chains else ORACLE)
        run = subprocess.run(command, env=environment, stdout=subprocess.PIPE, stderr=subprocess.PIPE, text=True)
    if run.returncode == 2:
        sys.exit("nothing could be compared:\n" + run.stderr)
    told = re.search(r"answers, ([\d,]+) different\n\Z", run.stdout)
    count = int(told[1].replace(",", "")) if told else -1
    right = (count > 0 if different is None else count == different) and run.returncode == (0 if different == 0 else 1)
    right = right and all("DIFFERENT " + text in run.stdout for text in shown)
    print("%s %s: status %d, %d different" % ("ok   " if right else "WRONG", title, run.returncode, count), flush=True)
    if not right:
        print(run.stdout[-3000:], run.stderr[-1000:])
    return right


def main():
    results = [trial("nothing changed", "angles,moves,covers", [], 0)]
    for kind, words in WORDS.items():
        words = words.split()
        # A text that was written otherwise is read otherwise too, a joined chain is asked beside that of all poses, and a part that is no part of its box is seen.
        results.append(trial("a digit of one answer to each of " + ", ".join(words), kind, words, len(words) + {"texts": 1, "joins": 2, "reach": 1}.get(kind, 0), words))
    results += [
        trial("a built move refused", "bounds", ["built"], 1, ["move"]),
        trial("another number of one refusal", "moves", ["refusal"], 1),
        trial("every zero of every box of the original's with the other sign", "bounds,boxes,motion", ["box_zeros"], 0),
        trial("one zero of a cover with the other sign", "covers", ["cover_zero"], 1, ["cover"]),
        trial("one zero of a point with the other sign", "moves", ["point_zero"], 1, ["point"]),
        trial("every NaN with other bits", "numbers,matrices", ["nan_bits"], 0),
        trial("an answer missing", "angles", ["missing"], 1, ["no answer"]),
        trial("an answer too many", "angles", ["too_many"], 1, ["the project has an answer too many"]),
        trial("a failure at the end", "angles", ["failure"], 1, ["the project ends by a failure"]),
        trial("covers too small, on both sides", "covers", ["narrow"], None, ["guarantee: a point leaves"], BOTH),
        trial("points refused, on both sides", "covers", ["unanswered"], None, ["guarantee: a point of an accepted cover is not answered"], BOTH),
        trial("covers that grow on one axis with the depth, on both sides", "covers", ["growing"], None, ["a finer cover is wider"], BOTH),
        trial("covers refused above depth 2, on both sides", "covers", ["shallow"], None, ["a finer cover is refused"], BOTH),
        trial("chains as they are", "chains", [], 0, cases=200),
        trial("a built chain refused", "chains", ["built"], 1, ["chain"]),
        trial("33 poses accepted", "chains", ["too_long"], 1, ["chain"]),
        trial("another number of one chain's refusal", "chains", ["refusal"], 1),
        trial("a list that falls, or has not its places, answered", "chains", ["falling"], 1, ["ctimes"]),
        trial("every zero of every motion box of chains with the other sign", "chains", ["box_zeros"], 0),
        trial("one zero of a chain's cover with the other sign", "chains", ["cover_zero"], 1, ["ccover"]),
        trial("one zero of a chain's point with the other sign", "chains", ["point_zero"], 1, ["cpoint"]),
        trial("slots kept after a refusal", "chains", ["slots_kept"], None, ["cpoint"], cases=200),
        trial("one slot for all", "chains", ["one_slot"], None, ["cpoint"], cases=200),
        trial("points of the first move alone", "chains", ["first_move_points"], None, ["cpoint"]),
        trial("covers of the first move alone, on both sides", "chains", ["first_move_covers"], None, ["guarantee: a point leaves"], BOTH_OF_CHAINS),
        trial("covers of chains too small, on both sides", "chains", ["narrow"], None, ["guarantee: a point leaves"], BOTH_OF_CHAINS),
        trial("points of chains refused, on both sides", "chains", ["unanswered"], None, ["guarantee: a point of an accepted cover is not answered"], BOTH_OF_CHAINS),
        trial("lists of times refused, on both sides", "chains", ["list_unanswered"], None, ["guarantee: a point of an accepted cover is not answered"], BOTH_OF_CHAINS),
        trial("the last points of lists elsewhere, on both sides", "chains", ["list_outside"], None, ["guarantee: a point leaves"], BOTH_OF_CHAINS),
        trial("covers of chains that grow with the depth, on both sides", "chains", ["growing"], None, ["a finer cover is wider"], BOTH_OF_CHAINS),
        trial("covers of chains refused above depth 2, on both sides", "chains", ["shallow"], None, ["a finer cover is refused"], BOTH_OF_CHAINS),
        trial("a pad below zero accepted", "chains", ["sixteen"], 1),
        trial("covers that don't grow by the pads, on both sides", "chains", ["covers_unpadded"], None, ["guarantee: a point leaves"], BOTH_OF_CHAINS),
        trial("pads that are wider than the covers' own, on both sides", "chains", ["wide_pad"], None, ["guarantee: a point leaves"], BOTH_OF_CHAINS),
        trial("pads refused, on both sides", "chains", ["pad_unanswered"], None, ["guarantee: a pad of an accepted cover is not answered"], BOTH_OF_CHAINS),
        trial("rigid chains as they are", "rigid", [], 0, cases=200),
        trial("a built rigid chain refused", "rigid", ["built"], 1, ["chain"]),
        trial("another number of one rigid chain's refusal", "rigid", ["refusal"], 1),
        trial("a pose that scales accepted", "rigid", ["seventeen"], 1),
        trial("a pose that mirrors accepted", "rigid", ["eighteen"], 1),
        trial("rigid chains built as plain", "rigid", ["all_plain"], None, ["cparts"], cases=200),
        trial("covers of rigid chains too small, on both sides", "rigid", ["narrow"], None, ["guarantee: a point leaves"], BOTH_OF_CHAINS),
        trial("covers of rigid chains that grow with the depth, on both sides", "rigid", ["growing"], None, ["a finer cover is wider"], BOTH_OF_CHAINS),
        trial("sets as they are", "sets", [], 0, cases=200),
        trial("17 boxes accepted", "sets", ["many_boxes"], 1, ["cset"]),
        trial("another number of one set's refusal", "sets", ["refusal"], 1),
        trial("the last refused box's number", "sets", ["last_refused"], None, ["cset"]),
        trial("one zero of a set's covers with the other sign", "sets", ["cover_zero"], 1, ["cset"]),
        trial("sets without their last cover", "sets", ["last_missing"], None, ["cset"]),
        trial("the union without its last box, on both sides", "sets", ["union_short"], None, ["guarantee: a point leaves"], BOTH_OF_CHAINS),
        trial("one box's cover given to all, on both sides", "sets", ["first_for_all"], None, ["guarantee: a point leaves"], BOTH_OF_CHAINS),
        trial("points of sets refused, on both sides", "sets", ["unanswered"], None, ["guarantee: a point of an accepted cover is not answered"], BOTH_OF_CHAINS),
        trial("sets that grow with the depth, on both sides", "sets", ["growing"], None, ["a finer cover is wider"], BOTH_OF_CHAINS),
        trial("unions alone that grow with the depth, on both sides", "sets", ["growing_union"], None, ["a finer cover is wider"], BOTH_OF_CHAINS),
        trial("sets refused above depth 2, on both sides", "sets", ["shallow"], None, ["a finer cover is refused"], BOTH_OF_CHAINS),
        trial("poses tried as they are", "trials", [], 0, cases=200),
        trial("another number of one place", "trials", ["nineteen"], 1, ["try"]),
        trial("another number of one trial's refusal", "trials", ["refusal"], 1),
        trial("one zero of a trial with the other sign", "trials", ["cover_zero"], 1, ["try"]),
        trial("every trial wider than its copy, on both sides", "trials", ["tried_otherwise"], None, ["a trial is not what a changed copy answers"], BOTH_OF_CHAINS),
        trial("joins as they are", "joins", [], 0, cases=200),
        trial("another number of one mismatch", "joins", ["twenty"], 1, ["join"]),
        trial("joined covers wider than the union, on both sides", "joins", ["joined_wider"], None, ["a joined chain and the two"], BOTH_OF_CHAINS),
        trial("windows as they are", "windows", [], 0, cases=200),
        trial("another number of ticks", "windows", ["twenty_one"], 1),
        trial("one zero of a window's cover with the other sign", "windows", ["cover_zero"], 1, ["wcover"]),
        trial("the last window left off every list, on both sides", "windows", ["left_off"], None, ["windows, and the covers of each"], BOTH_OF_CHAINS),
        trial("every window listed above depth 2, on both sides", "windows", ["windows_added"], None, ["windows at a greater depth"], BOTH_OF_CHAINS),
        trial("covers of windows that are a corner, on both sides", "windows", ["window_narrow"], None, ["a point in its window's cover"], BOTH_OF_CHAINS),
        trial("covers of windows that don't grow by the pads, on both sides", "windows", ["covers_unpadded"], None, ["a point in its window's cover"], BOTH_OF_CHAINS),
        trial("points in windows refused, on both sides", "windows", ["unanswered"], None, ["a point in its window's cover"], BOTH_OF_CHAINS),
        trial("texts as they are", "texts", [], 0, cases=200),
        trial("another number of one text's refusal", "texts", ["refusal"], 1),
        trial("another time in every written text, on both sides", "texts", ["other_time"], None, ["read of what was written"], BOTH_OF_CHAINS),
        trial("another pad in every written text, on both sides", "texts", ["other_pad"], None, ["read of what was written"], BOTH_OF_CHAINS),
        trial("every text written without its pads, on both sides", "texts", ["pads_left_out"], None, ["read of what was written"], BOTH_OF_CHAINS),
        trial("sets that don't grow by the pads, on both sides", "sets", ["covers_unpadded"], None, ["guarantee: a point leaves"], BOTH_OF_CHAINS),
        trial("days as they are", "days", [], 0, cases=200),
        trial("a digit of one day's answer", "days", ["day"], None, ["day"]),
        trial("another number of one day's refusal", "days", ["refusal"], 1),
        trial("all booms started at once, on both sides", "days", ["all_at_once"], None, ["day: two booms that run meet"], BOTH_OF_CHAINS),
        trial("a boom that starts late, on both sides", "days", ["one_late"], None, ["day: a boom starts late"], BOTH_OF_CHAINS),
        trial("rows as they are", "rows", [], 0, cases=200),
        trial("another number of one refusal of rows", "rows", ["refusal"], 1),
        trial("the last row that is reached left off", "rows", ["row_left_off"], None, ["rows"]),
        trial("rows by windows as they are", "reach", [], 0, cases=200),
        trial("a digit of one mask", "reach", ["reach"], None, ["reach"]),
        trial("another number of one refusal of rows by windows", "reach", ["refusal"], 1),
        trial("a row short in every answer", "reach", ["one_row_short"], None, ["reach"]),
        trial("each row's first window left off, on both sides", "reach", ["row_dry"], None, ["a point in a row that isn't named"], BOTH_OF_CHAINS, 200),
        trial("each row named a window late, on both sides", "reach", ["next_window"], None, ["a point in a row that isn't named"], BOTH_OF_CHAINS, 200),
        trial("rows by the first box alone, on both sides", "reach", ["first_box"], None, ["a point in a row that isn't named", "rows by each box by itself"], BOTH_OF_CHAINS, 200),
        trial("rows that touch not named, on both sides", "reach", ["rows_shrunk"], None, ["a point in a row that isn't named"], BOTH_OF_CHAINS, 200),
        trial("pads left out of rows by windows, on both sides", "reach", ["covers_unpadded"], None, ["a point in a row that isn't named"], BOTH_OF_CHAINS, 200),
        trial("points in rows refused, on both sides", "reach", ["unanswered"], None, ["a point in a row that isn't named"], BOTH_OF_CHAINS),
        trial("a row named in every window or none, on both sides", "reach", ["every_window"], None, ["named rows, and the window's covers", "one row in one window"], BOTH_OF_CHAINS, 200),
        trial("every row named above depth 2, on both sides", "reach", ["rows_added"], None, ["rows at a greater depth", "named rows, and the window's covers"], BOTH_OF_CHAINS),
        trial("rows by windows refused above depth 2, on both sides", "reach", ["deep_refused"], None, ["rows at a greater depth"], BOTH_OF_CHAINS),
        trial("refused windows passed over, on both sides", "reach", ["windows_passed_over"], None, ["named rows, and the window's covers"], BOTH_OF_CHAINS, 200),
        trial("another number of every refused window, on both sides", "reach", ["other_refusal"], None, ["a refused window, and its covers"], BOTH_OF_CHAINS, 200),
        trial("the last part left out, on both sides", "reach", ["part_missing"], None, ["the parts of a box"], BOTH_OF_CHAINS),
        trial("the first part a corner, on both sides", "reach", ["parts_apart"], None, ["the parts of a box"], BOTH_OF_CHAINS),
        trial("parts that leave their box, on both sides", "reach", ["parts_wider"], None, ["the parts of a box"], BOTH_OF_CHAINS),
        trial("files as they are", "files", ["file"], 0, cases=200),
        trial("a digit of one file's box and of one file's refusal", "files", ["wrong_file"], 2, ["cover, the program"], cases=200),
        trial("one zero of a file's cover with the other sign", "files", ["zero_file"], 1, ["cover, the program"], cases=200),
        trial("a space at the end of one rewritten file", "files", ["wrong_text"], None, ["rewrite, the program"], cases=200),
        trial("one file rewritten with the old thirteen names", "files", ["old_names"], None, ["rewrite, the program"], cases=200),
        trial("stretches as they are", "stretches", [], 0, cases=200),
        trial("another number of one stretch's refusal", "stretches", ["refusal"], 1),
        trial("the lines of one file's stretch", "files", ["wrong_lines"], 1, ["stretch, the program"], cases=200),
        trial("files of fourteen names taken as if their pads were zero", "files", ["no_pads"], None, ["cover, the program"], cases=200),
    ]
    results = [right for right in results if right is not None]
    print("%d of %d trials as they should be" % (sum(results), len(results)))
    sys.exit(0 if all(results) else 1)


if __name__ == "__main__":
    if "WRONG" not in os.environ:
        main()
    elif os.path.basename(sys.argv[0]) == "rewrite":
        rewrite(os.environ["WRONG"])
    elif os.path.basename(sys.argv[0]) == "stretch":
        stretch(os.environ["WRONG"])
    elif os.environ["WRONG"] in ("file", "wrong_file", "zero_file", "wrong_text", "old_names", "no_pads", "wrong_lines"):
        cover(os.environ["WRONG"])
    else:
        answers(os.environ["WRONG"].split())
