"""Clip hulls: the sections of the cube, worked out by hand, what is solid in hulls of other worlds, and sections that are no hulls."""

import struct

from rows.brushes import HALF
from rows.cube_files import BODY, EMPTY, NODES, SMALL_TREE, SOLID, SUMMARY, TEXT, TREE, header
from rows.leaks import LEAKS
from rows.table import Beside, Lines, Row
from rows.worlds import CUBE, OPPOSED, ROOM, brush, world

# how far the boxes of both hulls reach, below their point and above it
BELOW, ABOVE = {1: (16, 16, 24), 2: (32, 32, 24)}, {1: (16, 16, 32), 2: (32, 32, 64)}


def plain_tree(planes, nodes, leaves, bound=32768, sections=0, version=b"2"):
    """A tree file without rows."""
    numbered = sum(code != SOLID for code in leaves)
    head = header(len(planes), len(nodes), len(leaves), numbered, bound, sections)
    head = head[:7] + version + head[8:40] + b"\0" + (head[41:] if version == b"2" else b"")
    return head + b"".join(struct.pack("<3iq", *plane) for plane in planes) + b"".join(nodes) + b"".join(
        struct.pack("<iB", code, 0) for code in leaves)


def cube_hull(which, **form):
    """The hull of the cube: a larger box. A face to the west is moved by what the box has to the east, and so on."""
    ends = [(axis, place) for axis in range(3) for place in (-ABOVE[which][axis], 64 + BELOW[which][axis])]
    planes = [(*(int(axis == at) for at in range(3)), place) for axis, place in ends]
    nodes = [NODES[at:at + 20] for at in range(0, len(NODES), 20)]
    return plain_tree(planes, nodes, [EMPTY] * 3 + [SOLID] + [EMPTY] * 3, **form)


def with_sections(tree, *sections):
    """A tree file with sections: each a kind and its bytes."""
    return tree[:45] + struct.pack("<I", len(sections)) + tree[49:] + b"".join(
        struct.pack("<IQ", kind, len(data)) + data for kind, data in sections)


HULLED = with_sections(TREE, *((which, cube_hull(which)) for which in (1, 2)))
assert len(HULLED) == 1002
OPTIONS = ("map out --hulls", "--hulls map out", "map --hulls out --fast", "--fast map out --threads=64 --hulls")

# of a world's hulls places, the first of them in hull 1, and whether they are solid there
SKY, WATER = world(texture="sky1", first=(CUBE,)), world(texture="*water1", first=(CUBE,))
ASKED = [
    (TEXT, "hull=1,-8,0,0 hull=1,0,0,90 hull=1,0,0,-60 hull=2,0,0,-60", "solid empty empty solid"),
    # a millionth inside the moved faces, and beyond them; what lies on a plane goes to its front
    (TEXT, "hull=1,-15.999999,0,0 hull=1,-16.000001,0,0 hull=1,-16,0,0 hull=1,80,0,0", "solid empty solid empty"),
    (TEXT, "hull=1,0,0,87.999999 hull=1,0,0,88 hull=1,0,0,-32 hull=1,0,0,-32.000001", "solid empty solid empty"),
    (TEXT, "hull=2,95.999999,0,0 hull=2,96,0,0 hull=2,0,0,-64 hull=2,0,0,-64.000001", "solid empty solid empty"),
    (world(texture="CLIP", first=(CUBE,)), "hull=1,32,32,32 hull=2,-31,0,0 hull=1,-31,0,0", "solid solid empty"),
    (SKY, "hull=1,-8,0,0 hull=2,-31,0,0 hull=1,0,0,90", "solid solid empty"),
    (WATER, "hull=1,32,32,32 hull=2,32,32,32", "empty empty"),
    (world(texture="*slime", first=(CUBE,)), "hull=1,32,32,32 hull=2,32,32,32", "empty empty"),
    (world(texture="*lava1", first=(CUBE,)), "hull=1,32,32,32 hull=2,32,32,32", "empty empty"),
    # a clip brush in water; a flat brush; one without an end; none
    (world(texture="*water1", first=(CUBE,), brushes=brush(CUBE, "Clip")), "hull=1,32,32,32 hull=2,-31,0,0", "solid solid"),
    (world(brushes=OPPOSED), "hull=1,0,0,0 hull=2,0,0,0", "empty empty"),
    (world(brushes=HALF), "hull=1,112,0,0 hull=1,111.999999,0,0 hull=2,96,0,0 hull=2,95.999999,0,0", "solid empty solid empty"),
    (b"{ }", "hull=1,0,0,0 hull=2,0,0,0", "empty empty"),
    # brushes of other entities stop nothing
    (b"{ } {\n" + brush(CUBE).encode() + b"}", "hull=1,32,32,32 hull=2,32,32,32", "empty empty"),
    # a room, in which each wall is nearer; the outside is not filled
    (world(*ROOM, origins=("0 0 24",)), "hull=1,0,0,24 hull=1,0,0,23.999999 hull=1,48,0,24 hull=1,47.999999,0,24 hull=1,0,0,200 hull=2,0,0,24",
     "empty solid solid empty empty empty"),
]

# a file, the queries, which of them is refused, and why; no answer is printed before
PLAIN = cube_hull(1)
ODD = [
    PLAIN[:-1], PLAIN + b"\0", b"", PLAIN[:40] + b"\1" + PLAIN[41:] + bytes(6), cube_hull(1, bound=4096), TREE,
    cube_hull(1, version=b"1"), with_sections(PLAIN, (7, b"")), PLAIN[:7] + b"3" + PLAIN[8:],
]
REFUSALS = [
    (TREE, "hull=1,0,0,0", "1 refused: no part"),
    (TREE, "count hull=2,0,0,0 hull=1,0,0,0", "2 refused: no part"),
    (with_sections(TREE, (2, cube_hull(2))), "hull=2,0,0,0 hull=1,0,0,0", "2 refused: no part"),
    (with_sections(TREE, (7, cube_hull(2))), "hull=2,0,0,0", "1 refused: no part"),
    (b"QMTREE01" + TREE[8:41] + BODY, "hull=1,0,0,0", "1 refused: no part"),
    # that a place is outside goes before that there is no hull, or a bad one
    (TREE, "hull=1,32768,0,0", "1 refused: outside the cube"),
    (with_sections(TREE, (1, b"abc")), "hull=1,0,0,-32768", "1 refused: outside the cube"),
    (with_sections(SMALL_TREE, (1, PLAIN)), "hull=1,4096,0,0", "1 refused: outside the cube"),
    # a hull in a world of another size is none
    (with_sections(SMALL_TREE, (1, PLAIN)), "hull=1,0,0,0", "1 refused: bad part"),
    *((with_sections(TREE, (1, odd), (2, cube_hull(2))), "hull=2,0,0,0 parts hull=1,0,0,0", "3 refused: bad part") for odd in ODD),
    *((with_sections(TREE, (1, PLAIN), (2, odd)), "hull=1,0,0,0 hull=2,0,0,0", "2 refused: bad part") for odd in ODD),
]
# sections that say nothing of a level are asked as any: the walk leads to a leaf, and water is not solid
OTHERS = [
    (plain_tree([], [], [SOLID]), "solid"),
    (plain_tree([], [], [-3]), "empty"),
    (plain_tree([(1, 0, 0, 0)], [struct.pack("<I2q", 0, -1, -2)], [-6, SOLID]), "empty"),
]


def is_same(data, other):
    """Whether two files have the same bytes."""
    return data == other


def adds_sections(data, plain):
    """Whether a file has what another one has, and two sections."""
    return data.startswith(plain[:45]) and data[45:49] == b"\2\0\0\0" and data[49:].startswith(plain[49:]) and len(data) > len(plain)


def rows():
    for words in OPTIONS:
        yield Row(f"compile {words}", 0, SUMMARY, {"map": TEXT}, {"out": HULLED})
    for text, queries, answers in ASKED:
        printed = "".join(f"hull {answer}\n" for answer in answers.split())
        yield Row(f"inspect out {queries}", 0, printed, {"map": text}, first=("compile map out --fast --hulls",))
        yield Row("compile map out --fast --hulls", 0, Lines(""), {"map": text}, {"out": Beside("plain", adds_sections)}, ("compile map plain --fast",))
    yield Row("inspect out at=32,32,32 hull=1,32,32,32", 0, "leaf 0 empty number 0\nhull solid\n", {"map": ASKED[4][0]},
              first=("compile map out --hulls",))
    yield Row("inspect out parts", 0, "version 2 bound 32768 parts 1 2\n", {"map": TEXT}, first=("compile map out --hulls",))
    yield Row("upgrade tree out", 0, "version 2 to 2\n", {"tree": HULLED}, {"out": HULLED})
    for tree, queries, text in REFUSALS:
        yield Row(f"inspect tree {queries}", 9, f"query {text}\n", {"tree": tree})
    for section, answer in OTHERS:
        yield Row("inspect tree hull=2,0,0,0 at=32,32,32", 0, f"hull {answer}\nleaf 3 solid\n", {"tree": with_sections(TREE, (2, section))})
    # a level that leaks has no sections
    for text, entity, trail, _ in LEAKS:
        yield Row("compile map out --hulls", 3, f"leak: entity {entity}\ntrail: {trail}\n", {"map": text}, {"out": Beside("plain", is_same)},
                  ("compile map plain",))
