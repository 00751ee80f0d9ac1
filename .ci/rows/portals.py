"""The numbered leaves of small worlds, and the portals between them: what the leaves come to, as boxes, in a program that was written for
this alone."""

import struct

from rows.cube_files import SOLID
from rows.table import Lines, Row
from rows.worlds import CUBE, HOLE_ROOM, ROOM, world

AROUND_CUBE = [(1, 5), (2, 5), (3, 5), (4, 5), (0, 1), (0, 2), (0, 3), (0, 4), (2, 4), (3, 4), (1, 2), (1, 3)]
AROUND_ROOM = [(1, 6), (2, 6), (4, 6), (5, 6), (0, 1), (0, 2), (0, 4), (0, 5), (2, 5), (4, 5), (1, 2), (1, 4)]
AROUND_HOLE = [(1, 7), (2, 7), (5, 7), (6, 7), (0, 1), (0, 2), (0, 3), (0, 5), (0, 6), (2, 6), (5, 6), (1, 2), (1, 5), (3, 4)]
OPEN_ROOM = [0, 1, 2, 6, 10, 11, 12]
OPEN_HOLE = [0, 1, 2, 6, 8, 12, 13, 14]

# a world, what is said first, the leaves that are filled, those that are numbered, and both leaves of each portal by their numbers, the
# one in front first: a cube; the room with its entity in a wall, and inside; the room with a hole
WORLDS = [
    (world(CUBE), "no entity", [], [0, 1, 2, 4, 5, 6], AROUND_CUBE),
    (world(*ROOM, origins=("72 0 24",)), "no entity", [], OPEN_ROOM, AROUND_ROOM),
    (world(*ROOM, origins=("0 0 24",)), "sealed", [0, 1, 2, 10, 11, 12], [6], []),
    (world(*HOLE_ROOM), "no entity", [], OPEN_HOLE, AROUND_HOLE),
]


def has_leaves(filled, numbered):
    """A test of a tree file: these leaves are filled, and these are not solid."""
    def test(data):
        planes, nodes, leaves = struct.unpack_from("<3Q", data, 8)
        found = [*struct.iter_unpack("<iB", data[49 + 20 * planes + 20 * nodes:][:5 * leaves])]
        return ([number for number, leaf in enumerate(found) if leaf[1]] == filled
                and [number for number, leaf in enumerate(found) if leaf[0] != SOLID] == numbered)
    return test


def has_portals(leaves, portals):
    """A test of a listing: how many leaves it has, and both leaves of each portal."""
    def test(text):
        head, *lines = text.decode().splitlines()
        pairs = [tuple(int(word) for word in line.split()[1:3]) for line in lines[2:]]
        return [head, *lines[:2]] == ["PRT1", str(leaves), str(len(portals))] and pairs == portals
    return test


def rows():
    for text, first, filled, numbered, portals in WORLDS:
        yield Row("compile map out --prt list", 0, Lines(f"{first}\n"), {"map": text},
                  {"out": has_leaves(filled, numbered), "list": has_portals(len(numbered), portals)})
