#!/usr/bin/env python3
"""Prints a MAP text of N rooms, in rows that are joined at their eastern ends, with N brush models: a door in each doorway to a further
room, and a lift in each room that has none. A player starts in the first room.

    bench/made_doors.py N > MAP
"""

from math import ceil, sqrt
from pathlib import Path
import sys

sys.path.insert(0, str(Path(__file__).resolve().parent.parent / ".ci"))

from made_rooms import brush

# from wall to wall, how thick these are, how high a room is, and where in its wall a doorway is, and how high
STEP, WALL, HIGH = 112, 16, 96
DOORWAY = (32, 64, 64)


class Level:
    """Some rooms: the number of them, how many stand in a row, and where the first begins."""

    def __init__(self, rooms):
        self.rooms, self.wide = rooms, ceil(sqrt(rooms))
        self.rows = -(-rooms // self.wide)
        self.begin = -STEP * self.wide // 2

    def corner(self, room):
        """Where a room begins, in its wall to the west and that to the south."""
        return self.begin + STEP * (room % self.wide), self.begin + STEP * (room // self.wide)

    def walls(self):
        """The boxes of the world."""
        low, east, north = self.begin, self.begin + STEP * self.wide + WALL, self.begin + STEP * self.rows + WALL
        yield low, low, -WALL, east, north, 0
        yield low, low, HIGH, east, north, HIGH + WALL
        yield low, low, 0, low + WALL, north, HIGH
        yield low + WALL, low, 0, east, low + WALL, HIGH
        for room in range(self.wide * self.rows):
            x, y = self.corner(room)
            east_door, north_door = self.doorways(room)
            yield from parts((x + STEP, y + WALL, 0, x + STEP + WALL, y + STEP, HIGH), 1, east_door)
            yield from parts((x + WALL, y + STEP, 0, x + STEP + WALL, y + STEP + WALL, HIGH), 0, north_door)

    def doorways(self, room):
        """Whether a doorway is in the wall to the east, and in that to the north: rows are joined at their eastern ends."""
        at_end = room % self.wide == self.wide - 1
        return room < self.rooms - 1 and not at_end, room + self.wide < self.rooms and at_end

    def doors(self):
        """The boxes of the doors and lifts, room by room."""
        for room in range(self.rooms):
            x, y = self.corner(room)
            east_door, north_door = self.doorways(room)
            low, high, top = DOORWAY
            if east_door:
                yield x + STEP + 4, y + low, 0, x + STEP + WALL - 4, y + high, top
            elif north_door:
                yield x + low, y + STEP + 4, 0, x + high, y + STEP + WALL - 4, top
            else:
                yield x + low, y + low, 0, x + high, y + high, 8


def parts(wall, axis, has_doorway):
    """A wall: whole, or what is before, behind and above its doorway along an axis."""
    if not has_doorway:
        return [wall]
    low, high, top = DOORWAY
    # doorways are counted from the corner of the room, which is a wall's thickness before the wall
    begin = wall[axis] - WALL
    before, behind, above = list(wall), list(wall), list(wall)
    before[3 + axis], behind[axis] = begin + low, begin + high
    above[axis], above[3 + axis], above[2] = begin + low, begin + high, top
    return [before, behind, above]


def lines(rooms):
    """The lines of the map."""
    level = Level(rooms)
    yield from ["{", '"classname" "worldspawn"']
    for box in level.walls():
        yield from brush(box)
    x, y = level.corner(0)
    yield from ["}", "{", '"classname" "info_player_start"', f'"origin" "{x + 64} {y + 64} 24"', "}"]
    for number, box in enumerate(level.doors()):
        yield from ["{", f'"classname" "{"func_plat" if box[5] == 8 else "func_door"}"', f'"targetname" "room{number}"', *brush(box), "}"]


def main():
    print(*lines(int(sys.argv[1])), sep="\n")


if __name__ == "__main__":
    main()
