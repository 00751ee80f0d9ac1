"""What `inspect` answers of compiled levels."""

from rows.table import Row
from rows.worlds import ABOVE, APART, CORNER_ROOMS, CUBE, HOLE_ROOM, INSIDE, ROOM, brush, world

SEALED = world(*ROOM, origins=("0 0 24",))
LEAKING = world(*HOLE_ROOM, origins=("0 0 24",))
CORNER = world(*CORNER_ROOMS, origins=("-64 0 24",))
SHARING = world(CUBE, ABOVE)
# behind a flat brush, whose planes have the first numbers, so that the node between the two is joined away
JOINED = world(CUBE, ABOVE, brushes=APART)
# water round a stone, in both orders of the text, and a cube of sky
POND = world(INSIDE, texture="*water1", first=(CUBE,))
POND_FROM_INSIDE = world(brushes=brush(INSIDE) + brush(CUBE, "*water1"))
SKY = world(texture="Sky1", first=(CUBE,))

# a level, the queries, and the answers
ANSWERS = [
    (SEALED, "at=0,0,24 at=0,0,200 at=72,0,24", "leaf 6 empty number 0\nleaf 2 solid filled\nleaf 5 solid\n"),
    (SEALED, "count row=0 sees=0,0 parts",
     "planes 12 nodes 12 leaves 13 numbered 1 rows yes\nrow 0: 0\nyes\nversion 2 bound 32768 parts\n"),
    # on the planes of nodes: what lies in front has them
    (SEALED, "at=64,0,24 at=-64,0,24 at=0,0,0", "leaf 5 solid\nleaf 6 empty number 0\nleaf 6 empty number 0\n"),
    # a millionth inside the cube's face
    (SEALED, "at=32767.999999,0,0 at=+00,-0,0.5", "leaf 0 solid filled\nleaf 6 empty number 0\n"),
    (LEAKING, "count at=0,0,24", "planes 14 nodes 14 leaves 15 numbered 8 rows no\nleaf 8 empty number 4\n"),
    (CORNER, "row=1 row=4 sees=4,0 sees=4,2", "row 1: 0 1 2 3\nrow 4: 2 3 4\nno\nyes\n"),
    (SHARING, "at=32,32,64", "leaf 3 solid\n"),
    (JOINED, "at=32,32,64 at=32,32,1 at=32,32,127", "leaf 3 solid\nleaf 3 solid\nleaf 3 solid\n"),
    (POND, "at=32,32,32 at=8,8,8", "leaf 6 solid\nleaf 9 water number 8\n"),
    (POND_FROM_INSIDE, "at=32,32,32 at=8,8,8", "leaf 12 solid\nleaf 21 water number 20\n"),
    (SKY, "at=32,32,32", "leaf 3 sky number 3\n"),
]

# a level, the queries, which of them is refused, and why; no answer is printed before
REFUSALS = [
    (SEALED, "count row=1 at=32768,0,0", "2 refused: no such leaf"),
    (SEALED, "sees=0,999999999999999999", "1 refused: no such leaf"),
    (SEALED, "at=32768,0,0", "1 refused: outside the cube"),
    (SEALED, "at=32767.999999,0,0 at=0,-32768,0", "2 refused: outside the cube"),
    # that there is no such leaf goes before that there are no rows
    (LEAKING, "row=0", "1 refused: no rows"),
    (LEAKING, "count at=0,0,24 row=8", "3 refused: no such leaf"),
]


def asked(level, queries, status, printed):
    """A row that asks the tree of a level; no file changes."""
    return Row(f"inspect out {queries}", status, printed, {"map": level}, first=("compile map out",))


def rows():
    for level, queries, printed in ANSWERS:
        yield asked(level, queries, 0, printed)
    for level, queries, text in REFUSALS:
        yield asked(level, queries, 9, f"query {text}\n")
