"""From a boom's decimals to a chain of the library: which frame, which clock, which way each number is rounded."""
from dataclasses import replace
from fractions import Fraction

import binary32
from jellyplain import Chain, Pose, Refused
from planning.ending import numbered, refused
from planning.numbers import shown

HALF_TURN, NEAR = 180, 0.1      # degrees: a turn this near to 180 counts as 180
PART = 90                       # degrees: a turn that is split has parts below this
POSES = 32                      # the most of a chain


def pairs(poses):
    return list(zip(poses, poses[1:]))


def places(i):
    return "poses %d and %d" % (i + 1, i + 2)


def shown_turn(degrees):
    return "%.6g" % degrees


# ---- turns of 180 degrees and more

def with_turns_split(boom, split, warn):
    """The boom with every turn below 180 degrees: longer ones have poses on the way, or are refused."""
    poses = [boom.poses[0]]
    for i, (a, b) in enumerate(pairs(boom.poses)):
        turn = a.turn_to(b)
        if turn >= HALF_TURN - NEAR:
            parts = int(turn // PART) + 1
            if split and len(boom.poses) + parts - 1 > POSES:
                raise refused("%s: a turn of %s° needs %.6g poses on the way, and a chain has at most %d poses" % (places(i), shown_turn(turn), parts - 1, POSES))
            between = [a.between(b, Fraction(k, parts)) for k in range(1, parts)] if split else []
            if not split or None in between:
                raise refused("%s: a turn of %s° is not taken as set, since a turn goes the shorter way round and 180° has none; set poses on the way%s"
                              % (places(i), shown_turn(turn), "" if split else ", or ask with --split"))
            warn("boom '%s': %s: the turn of %s° is split by %d poses on the way, evenly in time, place, angle and pad" % (boom.name, places(i), shown_turn(turn), len(between)))
            poses += between
        poses.append(b)
    return replace(boom, poses=tuple(poses))


# ---- times

def collapsed(times, zero):
    """The first two neighbouring times that rise as decimals and are one float on a clock that starts at zero."""
    found = [(i, a, b) for i, (a, b) in enumerate(zip(times, times[1:])) if a < b and binary32.nearest(a - zero) == binary32.nearest(b - zero)]
    return found[0] if found else None


def collapse_text(found, zero):
    i, a, b = found
    return "the times %s and %s are one float, %s, on a clock that starts at %s" % (shown(a), shown(b), shown(Fraction(binary32.nearest(a - zero))), shown(zero))


def look_at_times(boom, start, warn):
    """Says which times don't rise, refuses those that collapse on the boom's own clock, and warns of those that would on the plan's."""
    times, own = [pose.time for pose in boom.poses], boom.poses[0].time
    if not 2 <= len(times) <= POSES:
        raise numbered(12, "poses: %d; " % len(times))
    for i, (a, b) in enumerate(pairs(times)):
        if a >= b:
            raise numbered(12, "%s: the times %s and %s don't rise; " % (places(i), shown(a), shown(b)))
    found = collapsed(times, own)
    if found:
        raise numbered(12, "%s: %s; set them further apart, or count from the start of the swing; " % (places(found[0]), collapse_text(found, own)))
    found = collapsed(times, start)
    if found:
        warn("boom '%s': %s: %s; it is built on its own clock, from its first pose" % (boom.name, places(found[0]), collapse_text(found, start)))


# ---- numbers in their direction

def shifted(box, offset, sign=1):
    """A box moved by an offset, which has a number for each axis, exactly."""
    return [Fraction(v) + sign * offset[i % len(offset)] for i, v in enumerate(box)]


def outward(box):
    """Least corners down, greatest up."""
    half = len(box) // 2
    return [binary32.down(v) for v in box[:half]] + [binary32.up(v) for v in box[half:]]


def pose_floats(pose, frame, zero, with_pad):
    """Time and matrix are the nearest floats, the pad is rounded up."""
    entries = []
    for row, place, origin in zip(pose.turn.matrix(), pose.at, frame):
        entries += [binary32.nearest(v) for v in (*row, place - origin)]
    return binary32.nearest(pose.time - zero), entries + [0.0, 0.0, 0.0, 1.0], binary32.up(pose.pad) if with_pad else 0.0


def pose_of(pose, frame, zero, with_pad):
    time, entries, pad = pose_floats(pose, frame, zero, with_pad)
    return Pose(time, [entries[i:i + 4] for i in range(0, 16, 4)], pad)


def build(boom, frame, zero, with_pads):
    """The boom's chain in a frame, on a clock that starts at zero."""
    poses = [pose_of(pose, frame, zero, with_pads) for pose in boom.poses]
    try:
        return Chain(poses, rigid=boom.rigid)
    except Refused as refusal:
        raise numbered(refusal.number, refused_poses(poses, boom.rigid))


def refused_poses(poses, rigid):
    """Which of them to look at, counted from 1; none where the library names none."""
    try:
        run = Chain.refused_run(poses, rigid=rigid)
    except Refused:
        return ""
    return "%s %s: " % ("pose" if len(run) == 1 else "poses", " and ".join(str(place + 1) for place in run)) if run else ""


def middle(booms):
    """A frame for several booms: the middle of their origins, in whole metres."""
    return tuple(Fraction(round((min(axis) + max(axis)) / 2)) for axis in zip(*[boom.origin() for boom in booms]))
