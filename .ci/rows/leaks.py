"""Worlds with entities: what leaks, what is filled, and what is seen."""

from pathlib import Path

from rows.table import Row
from rows.worlds import ALL, CORNER_ROOMS, CUBE, EDGE_ROOM, HOLE, HOLE_ROOM, ROOM, TWO_ROOMS, ends_with, summary, world

IN_THE_ROOM = ("0 0 24",)
ROOM_COUNTS = (6, 0, 12, 12, 13, 1, 6, 0, 1)
CORNER = world(*CORNER_ROOMS, origins=("-64 0 24",))

# rooms that are sealed, what is counted of them, the length of the file, and its rows: the room as an editor writes it, the room; an
# entity inside a wall; sky closes the hole; a room that meets the open in edges alone; an entity in sky, in the open and in sky that
# fills the cube; water under a room; solid that fills the cube
SEALED = [
    (Path(__file__).parent.parent.parent.joinpath("samples/room.map").read_bytes(), ROOM_COUNTS, 595, b"\1"),
    (world(*ROOM, origins=IN_THE_ROOM), ROOM_COUNTS, 595, b"\1"),
    (world(*HOLE_ROOM, texture="sky", first=(HOLE,), origins=IN_THE_ROOM), (8, 0, 14, 38, 39, 2, 24, 0, 2), 1286, b"\1\2"),
    (world(*EDGE_ROOM, origins=IN_THE_ROOM), (6, 0, 12, 14, 15, 1, 8, 0, 1), 645, b"\1"),
    (CORNER, (12, 0, 19, 22, 23, 5, 6, 4, 25), 989, b"\x1f" * 5),
    (world(texture="sky1", first=(CUBE,), origins=("32 32 32",)), (1, 0, 6, 6, 7, 1, 6, 0, 1), 325, b"\1"),
    (world(texture="sky", first=(ALL,), origins=("0 0 0",)), (1, 0, 6, 0, 1, 1, 0, 0, 1), 175, b"\1"),
    (world(*ROOM, texture="*water1", first=((-80, -80, -64, 80, 80, -16),), origins=IN_THE_ROOM), (7, 0, 13, 13, 14, 1, 7, 0, 1), 640, b"\1"),
]
WITHOUT_ENTITY = [
    (world(*ROOM, origins=("72 0 24",)), (6, 0, 12, 12, 13, 7, 0, 12, 35), 601, bytes((0x77, 0x77, 0x67, 0x08, 0x73, 0x77, 0x77))),
    (world(ALL), (1, 0, 6, 0, 1, 0, 0, 0, 0), 174, b""),
]

# entities of the room that the first origin places alone: a millionth above the floor, and a millionth inside the cube's face
ABOVE_THE_FLOOR = b'{\n"classname" "light"\n"origin" " 1 -2.5 0.000001"\n"origin" "x"\n}\n'
FAR_IN_THE_WEST = b'{\n"Origin" "x"\n"origin " "y"\n"origin" "\t-32767.999999 0.5\n1. "\n}\n'
# the room, of which the origin of the first entity is not read
PLACED = world(*ROOM).replace(b'"classname"', b'"origin" "x"\n"classname"', 1)

# worlds that leak, what is printed, and the length of the file: the room with a hole; an entity in the hole, on a node's plane; the
# first of two entities inside a wall, nowhere, and both in the open; lava in the hole; an entity in an empty world
LEAKS = [
    (world(*HOLE_ROOM, origins=IN_THE_ROOM), "1", "8 6 0", 684),
    (world(*HOLE_ROOM, origins=("64 0.5 24",)), "1", "6 0", 684),
    (world(*HOLE_ROOM, origins=("-72 0 24", "0 0 24")), "2", "8 6 0", 684),
    (world(*HOLE_ROOM, origins=("", "0 0 24")), "2", "8 6 0", 684),
    (world(*HOLE_ROOM, origins=("0 0 24", "64 0.5 24")), "1", "8 6 0", 684),
    (world(*HOLE_ROOM, texture="*lava", first=(HOLE,), origins=IN_THE_ROOM), "1", "29 11 0", 1284),
    (world(origins=("0 0 0",)), "1", "0", 54),
]

FINE = "compile map out"
FAST = "compile map --fast out"
# rows that chains of portals make finer, the same by any number of workers
FINE_COUNTS, FINE_ROWS = (12, 0, 19, 22, 23, 5, 6, 4, 21), bytes((0x0F, 0x0F, 0x1F, 0x1F, 0x1C))
WORKERS = (FINE, "compile map out --threads 1", "compile map out --threads 4", "compile map --threads=64 out")

LISTING = b"""\
PRT1
3
2
4 1 2 (-3488 -64 0 ) (-3488 -64 64 ) (-3488 -32 64 ) (-3488 -32 0 ) 
4 0 1 (-3472 -64 0 ) (-3472 -64 64 ) (-3472 -32 64 ) (-3472 -32 0 ) 
"""


def closed(words, text, first, counts, length, visible):
    """A level that is compiled with rows."""
    return Row(words, 0, summary(first, *counts), {"map": text}, {"out": ends_with(length, visible)})


def leaking(words, text, entity, trail, length):
    """A level that leaks: its file has no rows."""
    return Row(words, 3, f"leak: entity {entity}\ntrail: {trail}\n", {"map": text}, {"out": ends_with(length, b"", False)})


def listed():
    """Two rooms, with a listing of their portals."""
    text = world(*TWO_ROOMS, origins=("-3536 0 24",))
    return Row("compile map out --prt list", 0, summary("sealed", 8, 0, 16, 16, 17, 3, 6, 2, 9), {"map": text},
               {"out": ends_with(777, b"\7\7\7"), "list": LISTING})


def rows():
    for level in SEALED:
        yield closed(FAST, level[0], "sealed", *level[1:])
    for level in WITHOUT_ENTITY:
        yield closed(FAST, level[0], "no entity", *level[1:])
    for level in LEAKS:
        yield leaking(FAST, *level)
    for level in LEAKS[:2]:
        yield leaking(FINE, *level)
    yield closed(FINE, SEALED[3][0], "sealed", *SEALED[3][1:])
    for words in WORKERS:
        yield closed(words, CORNER, "sealed", FINE_COUNTS, 989, FINE_ROWS)
    yield closed(FAST, PLACED + ABOVE_THE_FLOOR, "sealed", ROOM_COUNTS, 595, b"\1")
    yield leaking(FAST, PLACED + FAR_IN_THE_WEST, "1", "12", 594)
    yield listed()
