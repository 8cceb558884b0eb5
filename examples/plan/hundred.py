#!/usr/bin/env python3
"""Prints a plan of 100 booms in 25 groups of four, 5,000 blocks and 26 nets as JSON: hundred.py > hundred.json, then tools/plan day hundred.json.

Each boom rests pointing away from the three others of its group, swings in between them and back; the groups stand 75 m apart and never meet.
"""
import json

LENGTH, SIDE, PITCH, GROUPS = 18, 30, 75, 5         # metres: a boom, the square of a group's masts, from group to group; groups on an axis
WEST, SOUTH = 583000, 4507700                       # of the national grid
COLUMNS, LINES = 100, 50                            # of blocks
EXTENT = PITCH * GROUPS


def poses(east, north):
    """From the side that looks away, in between the others, and back: 150 degrees each way, in a minute each."""
    rest = 0 if east else 180
    turned = rest + (150 if east != north else -150)
    return [{"time": time, "heading": heading, "pad": 1} for time, heading in ((0, rest), (60, turned), (120, rest))]


def group(i, j):
    """The four booms on the corners of a square."""
    x, y = WEST + PITCH * i, SOUTH + PITCH * j
    for east in (False, True):
        for north in (False, True):
            name = "%d-%d %s-%s" % (i + 1, j + 1, "north" if north else "south", "east" if east else "west")
            yield {"name": name, "kind": "rigid", "mast": [x + SIDE * east, y + SIDE * north, 0], "box": [0, -0.4, 1.75, LENGTH, 0.4, 2.25], "poses": poses(east, north)}


def block(column, line):
    x, y = WEST - 22.5 + EXTENT / COLUMNS * column, SOUTH - 22.5 + EXTENT / LINES * line
    return {"name": "block %d-%d" % (column + 1, line + 1), "box": [x, y, x + EXTENT / COLUMNS - 0.5, y + EXTENT / LINES - 0.5]}


def net(i, j):
    x, y = WEST + PITCH * i - 20, SOUTH + PITCH * j - 20
    return {"name": "net %d-%d" % (i + 1, j + 1), "height": 3, "region": [x, y, x + 70, y + 70]}


def plan():
    places = [(i, j) for i in range(GROUPS) for j in range(GROUPS)]
    wire = {"name": "power line", "height": 6, "line": [WEST - 30, SOUTH - 30, WEST + EXTENT, SOUTH + EXTENT]}
    return {
        "name": "hundred", "tick_seconds": 10, "window_seconds": 10, "booms": [boom for i, j in places for boom in group(i, j)],
        "rows": [block(column, line) for line in range(LINES) for column in range(COLUMNS)], "nets": [net(i, j) for i, j in places] + [wire],
    }


if __name__ == "__main__":
    print(json.dumps(plan(), indent=1))
