"""Worlds without entities, and what they compile to."""

from rows import cube_files
from rows.table import Row
from rows.worlds import ABOVE, APART, CORNER_ROOMS, CUBE, HOLE_ROOM, INSIDE, OPPOSED, ROOM, WALL, brush, ends_with, faces, summary, world

# the cube with its first plane once more; and among a pair, comments, a clip brush and a brush of another entity
AGAIN = "".join(("{\n{\n", *faces(CUBE), "( 0 7 9 ) ( 0 8 9 ) ( 0 7 10 ) stone 0 0 0 1 1\n}\n}\n"))
AMONG = ('// a cube\r\n{ "classname" "worldspawn"\n{ ( 9 0 0 ) ( 9 1 0 ) ( 9 0 1 ) Clip 0 0 0 1 1 }\n' + brush(CUBE)
         + '}\n{ "classname" "func_door" { ( 9 0 0 ) ( 9 1 0 ) ( 9 0 1 ) stone 0 0 0 1 1 } }')

# worlds without brushes: the one brush of the second text stands in another entity
BARE = [b"{ }", ("{ } {\n{\n" + faces(CUBE)[0] + "} }").encode()]

# the name on the cube's first face, and the code of what is inside by the first rule that fits; and names that leave the cube out
NAMES = [("*lava", -5), ("*LAVA_2", -5), ("*Slime2", -4), ("*slim", -3), ("*lav", -3), ("*x", -3), ("*", -3), ("sky", -6), ("Sky1", -6),
         ("SKY9", -6), ("clip1", -2), ("cli", -2), ("sk", -2), ("lava", -2), ("stone", -2), ('""', -2)]
CLIP_NAMES = ["clip", "CLIP", "ClIp"]

# a world, what is counted of it (brushes, flat ones, planes, nodes, leaves, numbered and filled ones, portals, what is seen), and the
# length of its file: a box that ends at the cube's face, flat brushes, solids that share a face, water round stone in both orders, a
# room, the room with a hole, and three rooms round a corner
WORLDS = [
    (world(WALL, WALL), (2, 0, 6, 5, 6, 5, 0, 8, 23), 304),
    (world(CUBE, ABOVE, brushes=APART), (3, 1, 7, 6, 7, 6, 0, 12, 34), 350),
    (world(CUBE, CUBE, brushes=OPPOSED), (3, 1, 6, 6, 7, 6, 0, 12, 34), 330),
    (world(brushes=OPPOSED), (1, 1, 1, 0, 1, 1, 0, 0, 1), 75),
    (world(INSIDE, first=(CUBE,), texture="*water1"), (2, 0, 12, 12, 13, 12, 0, 24, 68), 618),
    (world(brushes=brush(INSIDE) + brush(CUBE, "*water1")), (2, 0, 12, 24, 25, 24, 0, 52, 308), 966),
    (world(*ROOM), (6, 0, 12, 12, 13, 7, 0, 12, 35), 601),
    (world(*HOLE_ROOM), (7, 0, 14, 14, 15, 8, 0, 14, 42), 692),
    (world(*CORNER_ROOMS), (12, 0, 19, 22, 23, 11, 0, 16, 55), 1011),
]


def compiled(text, printed, out, words="compile map out"):
    """A text that compiles so."""
    return Row(words, 0, printed, {"map": text}, {"out": out})


def named(name):
    """The cube, with a name on its first face alone."""
    first, *others = faces(CUBE)
    return "".join(("{\n{\n", first.replace("stone", name), *others, "}\n}\n")).encode()


def named_row(name, code):
    """The name on the first face decides what is inside."""
    numbered, rows, seen = (6, cube_files.ROWS_AROUND, 34) if code == cube_files.SOLID else (7, cube_files.ROWS_WITH_INSIDE, 35)
    printed = summary("no entity", 1, 0, 6, 6, 7, numbered, 0, 12, seen)
    return compiled(named(name), printed, cube_files.tree_with(code, numbered, rows))


def rows():
    for text in (cube_files.TEXT, AGAIN.encode(), AMONG.encode()):
        yield compiled(text, cube_files.SUMMARY, cube_files.TREE)
    yield compiled(cube_files.TEXT, cube_files.SUMMARY, cube_files.TREE, "compile map out --fast")
    for text in (*BARE, *(named(name) for name in CLIP_NAMES)):
        yield compiled(text, cube_files.BARE_SUMMARY, cube_files.BARE_TREE)
    yield from (named_row(*row) for row in NAMES)
    for text, counts, length in WORLDS:
        yield compiled(text, summary("no entity", *counts), ends_with(length, b""))
