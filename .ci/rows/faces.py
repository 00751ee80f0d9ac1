"""Faces: those of a cube and of two stacked cubes, and sections that are none."""

import struct

from rows.cube_files import SUMMARY, TEXT, TREE
from rows.hulls import is_same, with_sections
from rows.leaks import LEAKS
from rows.table import Beside, Lines, Row
from rows.worlds import ABOVE, APART, CUBE, SIDES, brush, world


def face(leaf, brush, place, *corners):
    """A face as a section keeps it: its leaf, its brush, its place among the faces of the brush, and its corners."""
    return struct.pack("<2Q2I", leaf, brush, place, len(corners)) + b"".join(struct.pack("<3q", *corner) for corner in corners)


def faces(*each, count=None):
    """The bytes of a section of faces."""
    return struct.pack("<Q", len(each) if count is None else count) + b"".join(each)


# the faces of the cube, whose planes are x = 0, x = 64, y = 0, y = 64, z = 0 and z = 64. A corner has the plane of the face, that of
# the edge towards the corner before, and that of the edge towards the next one
EAST = face(0, 0, 1, (1, 4, 2), (1, 2, 5), (1, 5, 3), (1, 3, 4))
SIX = faces(
    face(6, 0, 0, (0, 2, 4), (0, 4, 3), (0, 3, 5), (0, 5, 2)),
    EAST,
    face(5, 0, 2, (2, 4, 0), (2, 0, 5), (2, 5, 1), (2, 1, 4)),
    face(1, 0, 3, (3, 0, 4), (3, 4, 1), (3, 1, 5), (3, 5, 0)),
    face(4, 0, 4, (4, 0, 2), (4, 2, 1), (4, 1, 3), (4, 3, 0)),
    face(2, 0, 5, (5, 2, 0), (5, 0, 3), (5, 3, 1), (5, 1, 2)),
)
# and one on a wall of the world's cube
EAST_CORNERS = "(64 0 0 ) (64 0 64 ) (64 64 64 ) (64 64 0 )"
ON_WALL = face(6, 18446744073709551615, 4294967295, (-1, 2, 4), (-1, 5, 2), (-6, 3, -1))
WALL_CORNERS = "(-32768 0 0 ) (-32768 0 64 ) (-32768 64 32768 )"
GOOD = with_sections(TREE, (4, faces(EAST, ON_WALL)))

# the cube with its face to the east twice
TWICE = brush(CUBE).replace(SIDES[1].format(64), f"{SIDES[1].format(64)} brick 0 0 0 1 1\n{SIDES[1].format(64)}")
# the cube's faces as they are printed, beside these leaves, of a brush, by these places among its faces
SIX_CORNERS = ("(0 0 0 ) (0 64 0 ) (0 64 64 ) (0 0 64 )", EAST_CORNERS, "(0 0 0 ) (0 0 64 ) (64 0 64 ) (64 0 0 )",
               "(0 64 0 ) (64 64 0 ) (64 64 64 ) (0 64 64 )", "(0 0 0 ) (64 0 0 ) (64 64 0 ) (0 64 0 )",
               "(0 0 64 ) (0 64 64 ) (64 64 64 ) (64 0 64 )")


def six(leaves, number=0, places=range(6)):
    """The cube's faces as text: a leaf, a brush, a face and the corners of each."""
    return [f"leaf {leaf} brush {number} face {place} {corners}" for leaf, place, corners in zip(leaves, places, SIX_CORNERS)]


# worlds and all their faces: two cubes, one on the other; two that overlap, whose planes to the south, north, bottom and top are
# the same: the first has what both have; three boxes that tile a plane; a brush with two faces on a plane: the first counts; a face
# on a wall of the world's cube: there is none; a cube in water, and one in sky, which are not solid
FOUND = [
    (world(CUBE, ABOVE, brushes=APART), [
        "leaf 6 brush 1 face 4 (0 0 0 ) (64 0 0 ) (64 64 0 ) (0 64 0 )", "leaf 0 brush 2 face 5 (0 0 128 ) (0 64 128 ) (64 64 128 ) (64 0 128 )",
        "leaf 5 brush 1 face 0 (0 0 0 ) (0 64 0 ) (0 64 64 ) (0 0 64 )", "leaf 5 brush 2 face 0 (0 0 64 ) (0 64 64 ) (0 64 128 ) (0 0 128 )",
        "leaf 1 brush 1 face 1 (64 0 0 ) (64 0 64 ) (64 64 64 ) (64 64 0 )", "leaf 1 brush 2 face 1 (64 0 64 ) (64 0 128 ) (64 64 128 ) (64 64 64 )",
        "leaf 4 brush 1 face 2 (0 0 0 ) (0 0 64 ) (64 0 64 ) (64 0 0 )", "leaf 4 brush 2 face 2 (0 0 64 ) (0 0 128 ) (64 0 128 ) (64 0 64 )",
        "leaf 2 brush 1 face 3 (0 64 0 ) (64 64 0 ) (64 64 64 ) (0 64 64 )", "leaf 2 brush 2 face 3 (0 64 64 ) (64 64 64 ) (64 64 128 ) (0 64 128 )",
    ]),
    (world(CUBE, (32, 0, 0, 96, 64, 64)), [
        f"leaf 11 brush 0 face 0 {SIX_CORNERS[0]}", "leaf 5 brush 1 face 2 (64 0 0 ) (64 0 64 ) (96 0 64 ) (96 0 0 )",
        "leaf 0 brush 1 face 3 (64 64 0 ) (96 64 0 ) (96 64 64 ) (64 64 64 )", "leaf 4 brush 1 face 4 (64 0 0 ) (96 0 0 ) (96 64 0 ) (64 64 0 )",
        "leaf 1 brush 1 face 5 (64 0 64 ) (64 64 64 ) (96 64 64 ) (96 0 64 )", "leaf 2 brush 1 face 1 (96 0 0 ) (96 0 64 ) (96 64 64 ) (96 64 0 )",
        f"leaf 10 brush 0 face 2 {SIX_CORNERS[2]}", f"leaf 6 brush 0 face 3 {SIX_CORNERS[3]}",
        f"leaf 9 brush 0 face 4 {SIX_CORNERS[4]}", f"leaf 7 brush 0 face 5 {SIX_CORNERS[5]}",
    ]),
    (world((0, 0, 0, 32, 64, 64), (32, 0, 0, 64, 32, 64), (32, 32, 0, 64, 64, 64)), [
        f"leaf 11 brush 0 face 0 {SIX_CORNERS[0]}", "leaf 5 brush 1 face 2 (32 0 0 ) (32 0 64 ) (64 0 64 ) (64 0 0 )",
        "leaf 0 brush 2 face 3 (32 64 0 ) (64 64 0 ) (64 64 64 ) (32 64 64 )", "leaf 4 brush 1 face 4 (32 0 0 ) (64 0 0 ) (64 32 0 ) (32 32 0 )",
        "leaf 4 brush 2 face 4 (32 32 0 ) (64 32 0 ) (64 64 0 ) (32 64 0 )", "leaf 1 brush 1 face 5 (32 0 64 ) (32 32 64 ) (64 32 64 ) (64 0 64 )",
        "leaf 1 brush 2 face 5 (32 32 64 ) (32 64 64 ) (64 64 64 ) (64 32 64 )", "leaf 2 brush 1 face 1 (64 0 0 ) (64 0 64 ) (64 32 64 ) (64 32 0 )",
        "leaf 2 brush 2 face 1 (64 32 0 ) (64 32 64 ) (64 64 64 ) (64 64 0 )", "leaf 10 brush 0 face 2 (0 0 0 ) (0 0 64 ) (32 0 64 ) (32 0 0 )",
        "leaf 6 brush 0 face 3 (0 64 0 ) (32 64 0 ) (32 64 64 ) (0 64 64 )", "leaf 9 brush 0 face 4 (0 0 0 ) (32 0 0 ) (32 64 0 ) (0 64 0 )",
        "leaf 7 brush 0 face 5 (0 0 64 ) (0 64 64 ) (32 64 64 ) (32 0 64 )",
    ]),
    (world(brushes=TWICE), six((6, 0, 5, 1, 4, 2), places=(0, 1, 3, 4, 5, 6))),
    (world((32704, 0, 0, 32768, 64, 64)), [
        "leaf 5 brush 0 face 0 (32704 0 0 ) (32704 64 0 ) (32704 64 64 ) (32704 0 64 )",
        "leaf 4 brush 0 face 2 (32704 0 0 ) (32704 0 64 ) (32768 0 64 ) (32768 0 0 )",
        "leaf 0 brush 0 face 3 (32704 64 0 ) (32768 64 0 ) (32768 64 64 ) (32704 64 64 )",
        "leaf 3 brush 0 face 4 (32704 0 0 ) (32768 0 0 ) (32768 64 0 ) (32704 64 0 )",
        "leaf 1 brush 0 face 5 (32704 0 64 ) (32704 64 64 ) (32768 64 64 ) (32768 0 64 )",
    ]),
    *((world(CUBE, texture=around, first=[(-64, -64, -64, 128, 128, 128)]), six((9, 3, 8, 4, 7, 5), number=1)) for around in ("*water", "sky")),
]

# what a section of faces is not: cut short, with bytes behind it, and with a face that cannot stand in it
ODD = [
    b"", faces(EAST)[:-1], faces(EAST) + b"\0", faces(count=1), faces(EAST, count=0), faces(face(0, 0, 0, (1, 2, 4), (1, 2, 5))),
    faces(face(7, 0, 0, (1, 2, 4), (1, 2, 5), (1, 3, 5))), faces(face(0, 0, 0, (6, 2, 4), (1, 2, 5), (1, 3, 5))),
    faces(face(0, 0, 0, (1, 2, 4), (1, -7, 5), (1, 3, 5))), faces(face(0, 0, 0, (1, 2, 4), (1, 2, 5), (1, 1, 5))),
    faces(face(0, 0, 0, (1, 2, 4), (1, 2, 5), (1, 3, -1))),
]
REFUSALS = [
    (TREE, "faces", "1 refused: no part"),
    (TREE, "count face=0", "2 refused: no part"),
    (with_sections(TREE, (7, faces(EAST))), "face=0", "1 refused: no part"),
    (with_sections(TREE, (4, b"abc")), "face=9", "1 refused: bad part"),
    (GOOD, "face=1 face=2", "2 refused: no such face"),
    (GOOD, "faces face=999999999999999999", "2 refused: no such face"),
    *((with_sections(TREE, (4, odd)), "parts faces", "2 refused: bad part") for odd in ODD),
]


def rows():
    yield Row("compile map out --faces --fast", 0, SUMMARY, {"map": TEXT}, {"out": with_sections(TREE, (4, SIX))})
    yield Row("inspect out faces face=1", 0, f"faces 6\nface 1 leaf 0 brush 0 face 1 {EAST_CORNERS}\n", {"map": TEXT},
              first=("compile map out --faces",))
    yield Row("inspect out face=6", 9, "query 1 refused: no such face\n", {"map": TEXT}, first=("compile map out --faces",))
    for text, found in FOUND:
        queries = " ".join(f"face={number}" for number in range(len(found)))
        yield Row(f"inspect out faces {queries}", 0, f"faces {len(found)}\n" + "".join(f"face {number} {line}\n" for number, line in enumerate(found)),
                  {"map": text}, first=("compile map out --faces",))
    yield Row("inspect out parts", 0, "version 2 bound 32768 parts 1 2 3 4\n", {"map": TEXT},
              first=("compile map out --faces --models --hulls",))
    yield Row("upgrade tree out", 0, "version 2 to 2\n", {"tree": GOOD}, {"out": GOOD})
    yield Row("inspect tree faces face=0 face=1", 0, f"faces 2\nface 0 leaf 0 brush 0 face 1 {EAST_CORNERS}\n"
              f"face 1 leaf 6 brush 18446744073709551615 face 4294967295 {WALL_CORNERS}\n", {"tree": GOOD})
    for tree, queries, text in REFUSALS:
        yield Row(f"inspect tree {queries}", 9, f"query {text}\n", {"tree": tree})
    # a level that leaks has no sections
    for text, number, trail, _ in LEAKS:
        yield Row("compile map out --faces", 3, f"leak: entity {number}\ntrail: {trail}\n", {"map": text}, {"out": Beside("plain", is_same)},
                  ("compile map plain",))
