#!/usr/bin/env python3
"""Makes move files, good and damaged, with any number of pose lines, and says what their layout (document 01, with document 02's chains) asks for each.

  move_files.py stream COUNT SEED [-]      the files one after the other, each behind its length as eight hexadecimal digits and a line feed
  move_files.py answers COUNT SEED [-]     a line for each: 14 values for each pose, the pad last, and 6 of the box as lower-case bits, every NaN as 7fc00000, or `refused 11`
  move_files.py write DIR COUNT SEED [-]   the files as DIR/0000.txt and so on, the answers as DIR/answers
  move_files.py read FILE                  the answer for one file

With - each file holds the next line of standard input, values as `answers` prints them, and not values of chance.
The reader below goes by regular expressions over whole lines and shares nothing with the proved one.
"""
import os
import random
import re
import struct
import sys

POSE = b"time m00 m01 m02 m03 m10 m11 m12 m13 m20 m21 m22 m23"
PADDED = POSE + b" pad"
BOX = b"x0 y0 z0 x1 y1 z1"
MOST = 65536
# Pose lines of 13 values and of 14 that go into a file.
MOST_POSES = 559
MOST_PADDED = 519
LINE = re.compile(rb"[^ \n]+(?: +[^ \n]+)*\Z")
VALUE = re.compile(rb"[0-9a-fA-F]{8}\Z")


# ---- what the layout asks

def words_of(line):
    return re.findall(rb"[^ ]+", line) if LINE.match(line) else None


def values_of(line, count):
    words = words_of(line)
    if words is None or len(words) != count or not all(VALUE.match(w) for w in words):
        return None
    return [int(w, 16) for w in words]


def read(data):
    """The bits of the values, 14 for each pose line, +0 for a pad that isn't there, and 6 for the box, or None for refusal 11."""
    if len(data) > MOST or not data.endswith(b"\n"):
        return None
    lines = data[:-1].split(b"\n")
    names = words_of(lines[0])
    if len(lines) < 3 or names not in (POSE.split(), PADDED.split()) or words_of(lines[-2]) != BOX.split():
        return None
    parts = [values_of(line, len(names)) for line in lines[1:-2]] + [values_of(lines[-1], 6)]
    return None if None in parts else sum([(part + [0])[:14] if len(part) > 6 else part for part in parts], [])


def answer(data):
    bits = read(data)
    if bits is None:
        return "refused 11"
    return " ".join("7fc00000" if b & 0x7FFFFFFF > 0x7F800000 else "%08x" % b for b in bits)


# ---- files

def value(rng):
    kind = rng.randrange(6)
    if kind == 0:
        return rng.choice([0, 0x80000000, 0x3F800000, 0xBF800000, 0x7F800000, 0xFF800000, 0x7FC00000, 0x7F800001, 1, 0x807FFFFF, 0xFFFFFFFF, 0xABCDEF01])
    if kind < 3:
        return rng.getrandbits(32)
    return struct.unpack("<I", struct.pack("<f", rng.uniform(-20, 20)))[0]


def word(rng, bits):
    text = "%08x" % bits
    case = rng.randrange(3)
    if case == 0:
        return text.encode()
    if case == 1:
        return text.upper().encode()
    return "".join(rng.choice([c, c.upper()]) for c in text).encode()


def line(rng, words):
    most = rng.choice([1, 1, 1, 2, 5, 40])
    out = words[0]
    for w in words[1:]:
        out += b" " * rng.randint(1, most) + w
    return out


def good_values(rng):
    """A row of 14 values for each pose, or of 13 where the pads are left out, and one of 6 for the box."""
    poses = rng.choice([2, 2, 2, 2, 3, 3, 4, 7, 0, 1, 32, 33])
    values = rng.given or [value(rng) for _ in range(14 * poses + 6)]
    columns = rng.choice([13, 14])
    return [values[i:i + columns] for i in range(0, len(values) - 6, 14)] + [values[-6:]], columns


def good_lines(rng):
    values, columns = good_values(rng)
    rows = [line(rng, [word(rng, bits) for bits in row]) for row in values]
    return [line(rng, names(columns))] + rows[:-1] + [line(rng, BOX.split()), rows[-1]]


def names(columns):
    return (POSE if columns == 13 else PADDED).split()


def many_lines(rng, count=None):
    """So many pose lines, or as many as there may be, each as short as it can be: the poses over and over, at times one with a value that is not finite."""
    rows, columns = good_values(rng)
    if count is None:
        most = MOST_POSES if columns == 13 else MOST_PADDED
        count = rng.choice([most - 1, most, most, most + 1])
    poses = [list(rows[i % (len(rows) - 1)]) for i in range(count)] if len(rows) > 1 else [[value(rng) for _ in range(columns)] for _ in range(count)]
    if rng.randrange(2):
        poses = [[b & 0x7F7FFFFF if b & 0x7F800000 == 0x7F800000 else b for b in pose] for pose in poses]
        if rng.randrange(2):
            rng.choice([poses[0], poses[-1], rng.choice(poses)])[rng.randrange(columns)] = rng.choice([0x7F800000, 0xFF800000, 0x7FC00000])
    lines = [b" ".join(word(rng, bits) for bits in row) for row in poses + rows[-1:]]
    return [b" ".join(names(columns))] + lines[:-1] + [BOX, lines[-1]]


def joined(lines):
    return b"".join(l + b"\n" for l in lines)


def filled(rng, size):
    """A good file of that many bytes: spaces between two words of one line make it up."""
    return spread(rng, good_lines(rng), size)


def spread(rng, lines, size):
    lack = size - len(joined(lines))
    k = rng.randrange(len(lines))
    place = rng.choice([m.start() for m in re.finditer(b" ", lines[k])])
    lines[k] = lines[k][:place] + b" " * lack + lines[k][place:]
    return joined(lines)


def change_byte(rng, data, old, new):
    places = [i for i, b in enumerate(data) if b == old]
    i = rng.choice(places)
    return data[:i] + new + data[i + 1:]


def damages():
    """Each takes a generator and a good file's lines and gives a file, which most often departs from the layout."""
    made = []

    def damage(f):
        made.append(f)
        return f

    def some_line(rng, lines, f):
        k = rng.randrange(len(lines))
        return joined(lines[:k] + [f(lines[k])] + lines[k + 1:])

    def some_values(rng, lines, f):
        k = rng.choice([i for i in range(1, len(lines)) if i != len(lines) - 2])
        words = lines[k].split()
        return joined(lines[:k] + [line(rng, f(words))] + lines[k + 1:])

    def some_names(rng, lines, f):
        k = rng.choice([0, len(lines) - 2])
        words = lines[k].split()
        return joined(lines[:k] + [line(rng, f(words))] + lines[k + 1:])

    def at_word(rng, words, f):
        i = rng.randrange(len(words))
        return words[:i] + [f(words[i])] + words[i + 1:]

    space, feed = 32, 10
    damage(lambda rng, lines: change_byte(rng, joined(lines), space, b"\t"))
    damage(lambda rng, lines: change_byte(rng, joined(lines), space, b" \t"))
    damage(lambda rng, lines: change_byte(rng, joined(lines), space, rng.choice([b"\0", b"\r", b"\v", b"\f", b"\xa0", b",", b"_"])))
    damage(lambda rng, lines: change_byte(rng, joined(lines), space, b"\n"))
    damage(lambda rng, lines: change_byte(rng, joined(lines), space, b""))
    damage(lambda rng, lines: change_byte(rng, joined(lines), feed, b"\r\n"))
    damage(lambda rng, lines: joined(lines).replace(b"\n", b"\r\n"))
    damage(lambda rng, lines: change_byte(rng, joined(lines), feed, b"\r"))
    damage(lambda rng, lines: change_byte(rng, joined(lines), feed, b" "))
    damage(lambda rng, lines: change_byte(rng, joined(lines), feed, b""))
    damage(lambda rng, lines: change_byte(rng, joined(lines), feed, b"\n\n"))
    damage(lambda rng, lines: change_byte(rng, joined(lines), feed, b" \n"))
    damage(lambda rng, lines: change_byte(rng, joined(lines), feed, b"\n "))
    damage(lambda rng, lines: joined(lines)[:-1])
    damage(lambda rng, lines: joined(lines) + b"\n")
    damage(lambda rng, lines: joined(lines) + rng.choice([b" ", b"\0", b"a", b"\r", b" \n", b"x"]))
    damage(lambda rng, lines: rng.choice([b" ", b"\n", b"\xef\xbb\xbf", b"\r", b"#\n", b"\t"]) + joined(lines))
    damage(lambda rng, lines: some_line(rng, lines, lambda l: b" " + l))
    damage(lambda rng, lines: some_line(rng, lines, lambda l: l + b" "))
    damage(lambda rng, lines: some_line(rng, lines, lambda l: b""))
    damage(lambda rng, lines: some_line(rng, lines, lambda l: b" "))
    damage(lambda rng, lines: some_line(rng, lines, lambda l: b" " * 3 + l + b" " * 3))
    damage(lambda rng, lines: joined(lines + [rng.choice(lines)]))
    damage(lambda rng, lines: joined(lines[:1] + lines[1:2] + lines[1:]))
    damage(lambda rng, lines: joined(lines[:1] + lines[1:-2] + lines[1:]))
    damage(lambda rng, lines: joined(lines[:1] + lines[-2:]))
    damage(lambda rng, lines: joined(lines[:2] + lines[-2:]))
    damage(lambda rng, lines: joined(lines[:-2] + lines[-1:] + lines[-2:]))
    damage(lambda rng, lines: joined(lines[:-2] + lines[:1] + lines[1:-2] + lines[-2:]))
    damage(lambda rng, lines: joined([l for i, l in enumerate(lines) if i != rng.randrange(len(lines))]))
    damage(lambda rng, lines: joined(lines[:rng.randrange(len(lines))]))
    damage(lambda rng, lines: joined(rng.sample(lines, len(lines))))
    damage(lambda rng, lines: joined(many_lines(rng, rng.choice([2, 3, 31, 32, 33, 34, 64, 100]))))
    damage(lambda rng, lines: joined(many_lines(rng)))
    damage(lambda rng, lines: spread(rng, many_lines(rng, MOST_PADDED - 1), MOST + rng.choice([0, 0, -1, 1])))
    damage(lambda rng, lines: joined(lines) + joined(lines))
    damage(lambda rng, lines: some_values(rng, lines, lambda w: w[:-1]))
    damage(lambda rng, lines: some_values(rng, lines, lambda w: w[1:]))
    damage(lambda rng, lines: some_values(rng, lines, lambda w: w + [w[0]]))
    damage(lambda rng, lines: some_values(rng, lines, lambda w: at_word(rng, w, lambda x: x[:7])))
    damage(lambda rng, lines: some_values(rng, lines, lambda w: at_word(rng, w, lambda x: x + b"0")))
    damage(lambda rng, lines: some_values(rng, lines, lambda w: at_word(rng, w, lambda x: b"0" + x)))
    damage(lambda rng, lines: some_values(rng, lines, lambda w: at_word(rng, w, lambda x: x[:3] + b" " + x[3:])))
    damage(lambda rng, lines: some_values(rng, lines, lambda w: at_word(rng, w, lambda x: rng.choice([b"+", b"-"]) + x[1:])))
    damage(lambda rng, lines: some_values(rng, lines, lambda w: at_word(rng, w, lambda x: b"0x" + x[2:])))
    damage(lambda rng, lines: some_values(rng, lines, lambda w: at_word(rng, w, lambda x: bytes([rng.choice(b"gG/:@`\x80\xff_ ")]) + x[1:])))
    damage(lambda rng, lines: some_values(rng, lines, lambda w: at_word(rng, w, lambda x: x[:7] + bytes([rng.randrange(256)]))))
    damage(lambda rng, lines: some_names(rng, lines, lambda w: at_word(rng, w, lambda x: x.upper())))
    damage(lambda rng, lines: some_names(rng, lines, lambda w: at_word(rng, w, lambda x: x + b"0")))
    damage(lambda rng, lines: some_names(rng, lines, lambda w: at_word(rng, w, lambda x: x[:-1])))
    damage(lambda rng, lines: some_names(rng, lines, lambda w: at_word(rng, w, lambda x: x[::-1])))
    damage(lambda rng, lines: some_names(rng, lines, lambda w: rng.sample(w, len(w))))
    damage(lambda rng, lines: some_names(rng, lines, lambda w: w[:-1]))
    damage(lambda rng, lines: some_names(rng, lines, lambda w: w[1:]))
    damage(lambda rng, lines: some_names(rng, lines, lambda w: w + [rng.choice([b"pad", b"m30", w[-1]])]))
    damage(lambda rng, lines: joined([line(rng, lines[0].split() + [b"pad"])] + [l + b" 00000000" for l in lines[1:-2]] + lines[-2:]))
    damage(lambda rng, lines: joined([line(rng, rng.choice([POSE, PADDED]).split())] + lines[1:]))
    damage(lambda rng, lines: joined(lines[-2:] + lines[:-2]))

    @damage
    def byte_changed(rng, lines):
        data = bytearray(joined(lines))
        data[rng.randrange(len(data))] = rng.choice([rng.randrange(256), 32, 10, 48, 65, 97])
        return bytes(data)

    @damage
    def byte_gone(rng, lines):
        data = joined(lines)
        i = rng.randrange(len(data))
        return data[:i] + data[i + 1:]

    @damage
    def byte_more(rng, lines):
        data = joined(lines)
        i = rng.randrange(len(data) + 1)
        return data[:i] + bytes([rng.choice([rng.randrange(256), 32, 10, 48, 65, 97])]) + data[i:]

    damage(lambda rng, lines: joined(lines)[:rng.randrange(len(joined(lines)))])
    damage(lambda rng, lines: rng.choice([b"", b"\n", b" ", b" \n", b"\n" * 5, b"\n" * 6, b"0" * 8]))
    damage(lambda rng, lines: bytes(rng.randrange(256) for _ in range(rng.randrange(400))))
    damage(lambda rng, lines: bytes(rng.choice(b" \n0123456789abcdefABCDEFtimexyz") for _ in range(rng.randrange(400))))
    damage(lambda rng, lines: filled(rng, MOST + rng.choice([1, 1, 2, 9])))
    damage(lambda rng, lines: filled(rng, MOST - rng.choice([0, 0, 1])))
    damage(lambda rng, lines: filled(rng, MOST) + b"\n")
    damage(lambda rng, lines: joined(lines) + b" " * rng.choice([MOST, MOST - len(joined(lines))]))
    return made


DAMAGES = damages()


def files(count, seed, given):
    """Every damage in turn, and a good file after each third. `given` are rows of values to be held in turn, or none."""
    rng = random.Random(seed)
    for i in range(count):
        rng.given = given[i % len(given)] if given else None
        if i % 4 == 3:
            yield joined(good_lines(rng))
        else:
            yield DAMAGES[(i - i // 4) % len(DAMAGES)](rng, good_lines(rng))


def main(argv):
    verb, rest = argv[0], argv[1:]
    if verb == "read":
        with open(rest[0], "rb") as f:
            print(answer(f.read()))
        return
    folder, rest = (rest[0], rest[1:]) if verb == "write" else (None, rest)
    given = [[int(w, 16) for w in row.split()] for row in sys.stdin] if rest[2:] == ["-"] else []
    made = files(int(rest[0]), int(rest[1]), given)
    if verb == "write":
        os.makedirs(folder, exist_ok=True)
        with open(os.path.join(folder, "answers"), "w") as answers:
            for i, data in enumerate(made):
                with open(os.path.join(folder, "%04d.txt" % i), "wb") as f:
                    f.write(data)
                answers.write(answer(data) + "\n")
        return
    for data in made:
        if verb == "stream":
            sys.stdout.buffer.write(b"%08x\n" % len(data) + data)
        else:
            print(answer(data))


if __name__ == "__main__":
    if len(sys.argv) < 3:
        sys.exit(__doc__)
    main(sys.argv[1:])
