"""Brushes of worlds: how many there are and how many are flat, the planes that enter the book, and the contents of a point."""

from rows.table import Lines, Row
from rows.worlds import CUBE, INSIDE, OPPOSED, WALL, brush, world

# what is in front of one plane and behind another: nothing; in front of one plane; behind one of the cube's walls, and beyond it
NOWHERE = "{\n( 0 0 0 ) ( 0 0 1 ) ( 0 1 0 ) stone 0 0 0 1 1\n( 64 0 0 ) ( 64 1 0 ) ( 64 0 1 ) stone 0 0 0 1 1\n}\n"
HALF = "{\n( 128 0 0 ) ( 128 1 0 ) ( 128 0 1 ) stone 0 0 0 1 1\n}\n"
WHOLE = "{\n( 32768 0 0 ) ( 32768 0 1 ) ( 32768 1 0 ) *slime 0 0 0 1 1\n}\n"
BEYOND = "{\n( 32768 0 0 ) ( 32768 1 0 ) ( 32768 0 1 ) stone 0 0 0 1 1\n}\n"
LAVA = brush((0, 0, 64, 64, 64, 128), "*lava")
CLIP = brush(CUBE, "CLIP")

# two brushes, or one: how many count, how many of them are flat, how many planes there are, a point, and its leaf with its contents
WORLDS = [
    (OPPOSED, 1, 1, 1, "0,32,32", "leaf 0 empty number 0"),
    (NOWHERE, 1, 1, 2, "32,32,32", "leaf 0 empty number 0"),
    (NOWHERE + brush(CUBE), 2, 1, 6, "0,32,32", "leaf 3 solid"),
    (brush(CUBE) + LAVA, 2, 0, 7, "32,32,63", "leaf 4 solid"),
    (brush(CUBE) + LAVA, 2, 0, 7, "32,32,65", "leaf 3 lava number 3"),
    (LAVA + brush(CUBE), 2, 0, 7, "32,32,63", "leaf 4 solid"),
    (LAVA + brush(CUBE), 2, 0, 7, "32,32,65", "leaf 3 lava number 3"),
    # a stone in water, in both orders of the text, and stone and lava in one place
    (brush(CUBE, "*water1") + brush(INSIDE), 2, 0, 12, "32,32,32", "leaf 6 solid"),
    (brush(INSIDE) + brush(CUBE, "*water1"), 2, 0, 12, "32,32,32", "leaf 12 solid"),
    (brush(INSIDE) + brush(CUBE, "*water1"), 2, 0, 12, "8,8,8", "leaf 21 water number 20"),
    (brush(CUBE, "*lava") + brush(CUBE), 2, 0, 6, "32,32,32", "leaf 3 solid"),
    (brush(CUBE) + brush(CUBE, "*lava"), 2, 0, 6, "32,32,32", "leaf 3 solid"),
    # clip brushes are left out
    (CLIP, 0, 0, 0, "32,32,32", "leaf 0 empty number 0"),
    (brush(CUBE, "Sky1") + CLIP, 1, 0, 6, "32,32,32", "leaf 3 sky number 3"),
    (CLIP + brush(CUBE, "Sky1"), 1, 0, 6, "32,32,32", "leaf 3 sky number 3"),
    (brush(WALL), 1, 0, 6, "32767,1,1", "leaf 2 solid"),
    (HALF, 1, 0, 1, "4000,0,0", "leaf 0 solid"),
    (HALF, 1, 0, 1, "0,0,0", "leaf 1 empty number 0"),
    (WHOLE + BEYOND, 2, 1, 1, "4000,0,0", "leaf 0 slime number 0"),
    ("", 0, 0, 0, "0,0,0", "leaf 0 empty number 0"),
]


def is_tree(data):
    """Whether a file begins as a tree file does."""
    return data.startswith(b"QMTREE02")


def rows():
    for text, brushes, flat, planes, at, leaf in WORLDS:
        files = {"map": world(brushes=text)}
        counts = f"no entity\nbrushes {brushes}\nflat {flat}\nplanes {planes}\n"
        yield Row("compile map out", 0, Lines(counts), files, {"out": is_tree})
        yield Row(f"inspect out at={at}", 0, f"{leaf}\n", files, first=("compile map out",))
