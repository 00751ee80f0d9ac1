#!/usr/bin/env python3
"""Prints the map that `qmapc demo N NUMBER` compiles: N rooms in a row, with a doorway from each to the next at one of four places,
which the digits of NUMBER to the base 4 choose.

    .ci/made_rooms.py N NUMBER > MAP
"""

import sys

# the points of the six faces of a box, by its coordinates: a face lies where all its points agree
FACES = ["x0 0 0,x0 1 0,x0 0 1", "x1 0 0,x1 0 1,x1 1 0", "0 y0 0,0 y0 1,1 y0 0", "0 y1 0,1 y1 0,0 y1 1",
         "0 0 z0,1 0 z0,0 1 z0", "0 0 z1,0 1 z1,1 0 z1"]
NAMES = ["x0", "y0", "z0", "x1", "y1", "z1"]
# from the west wall of the first room to the next one
FIRST, STEP = -3488, 112


def boxes(count, number):
    """The boxes of the world: the floor, the ceiling, three walls around all, and the east wall of each room."""
    end = STEP * count - 3584
    yield -3600, -80, -16, end, 80, 0
    yield -3600, -80, 96, end, 80, 112
    yield -3600, -80, 0, end, -64, 96
    yield -3600, 64, 0, end, 80, 96
    yield -3600, -64, 0, -3584, 64, 96
    for room in range(count):
        west = FIRST + STEP * room
        south = 32 * (number // 4 ** (room % 32) % 4) - 64
        yield from wall(west, west + 16, south if room < count - 1 else None)


def wall(west, east, south):
    """An east wall: whole, or south of its doorway, north of it and above it."""
    if south is None:
        yield west, -64, 0, east, 64, 96
        return
    if south != -64:
        yield west, -64, 0, east, south, 96
    if south != 32:
        yield west, south + 32, 0, east, 64, 96
    yield west, south, 64, east, south + 32, 96


def brush(box):
    """The lines of a box."""
    values = dict(zip(NAMES, box))
    yield "{"
    for face in FACES:
        points = [" ".join(str(values.get(word, word)) for word in point.split()) for point in face.split(",")]
        yield "".join(f"( {point} ) " for point in points) + "stone 0 0 0 1 1"
    yield "}"


def lines(count, number):
    """The lines of the map."""
    yield from ["{", '"classname" "worldspawn"']
    for box in boxes(count, number):
        yield from brush(box)
    yield from ["}", "{", '"classname" "info_player_start"', '"origin" "-3536 0 24"', "}"]


if __name__ == "__main__":
    print(*lines(int(sys.argv[1]), int(sys.argv[2])), sep="\n")
