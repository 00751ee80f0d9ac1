"""Segments through the trees of levels and through their clip hulls: their spans, and what cannot be asked."""

import struct

from rows.asked import LEAKING, SEALED
from rows.cube_files import EMPTY, SOLID, TEXT, TREE, header
from rows.hulls import HULLED, cube_hull, with_sections
from rows.table import Row

# how far from 0 the distance of a plane may be
MOST = 3 << 41


def parted(distance, rows=True):
    """The file of a tree of one node, on the plane of this distance across x: solid behind it, and open in front."""
    head = header(1, 1, 2, 1)
    return (head if rows else head[:40] + b"\0" + head[41:]) + struct.pack("<3iq", 1, 0, 0, distance) + struct.pack(
        "<I2q", 0, -1, -2) + struct.pack("<iBiB", EMPTY, 0, SOLID, 0) + (b"\1" if rows else b"")


# a level and how it is compiled, a segment, and its spans
TRACES = [
    (SEALED, "", "trace=0,0,24,0,0,200", "leaf 6 empty to 9/22", "leaf 3 solid to 1/2", "leaf 2 solid filled to 1/1"),
    (SEALED, "", "trace=0,0,200,0,0,24", "leaf 2 solid filled to 1/2", "leaf 3 solid to 13/22", "leaf 6 empty to 1/1"),
    (LEAKING, "", "trace=0,0.5,24,200,0.5,24", "leaf 8 empty to 8/25", "leaf 6 empty to 2/5", "leaf 0 empty to 1/1"),
    # one point, off the planes and on one, which counts to the front
    (SEALED, "", "trace=0,0,24,0,0,24", "leaf 6 empty to 1/1"),
    (SEALED, "", "trace=64,0,24,64,0,24", "leaf 5 solid to 1/1"),
    # along a plane, with the leaf in front of it; from a plane to either side; and up to one
    (SEALED, "", "trace=64,-10,24,64,10,24", "leaf 5 solid to 1/1"),
    (SEALED, "", "trace=64,0,24,-64,0,24", "leaf 6 empty to 1/1"),
    (SEALED, "", "trace=64,0,24,72,0,24", "leaf 5 solid to 1/1"),
    (SEALED, "", "trace=0,0,24,64,0,24", "leaf 6 empty to 1/1"),
    # through the edge in which floor and wall meet, where all change at one place
    (SEALED, "", "trace=48,0,16,80,0,-16", "leaf 6 empty to 1/2", "leaf 9 solid to 1/1"),
    (TEXT, "", "trace=-64,-64,-64,128,128,128", "leaf 6 empty to 1/3", "leaf 3 solid to 2/3", "leaf 0 empty to 1/1"),
    (TEXT, "", "trace=-32767.999999,32,32,32767.999999,32,32", "leaf 6 empty to 1/2", "leaf 3 solid to 32831999999/65535999998",
     "leaf 0 empty to 1/1"),
    (TEXT, " --hulls", "hulltrace=1,32,32,-100,32,32,200", "leaf 4 empty to 17/75", "leaf 3 solid to 47/75", "leaf 2 empty to 1/1"),
    (TEXT, " --hulls", "hulltrace=2,32,32,-100,32,32,200", "leaf 4 empty to 3/25", "leaf 3 solid to 47/75", "leaf 2 empty to 1/1"),
    (b"{ }", " --hulls", "hulltrace=1,1,2,3,4,5,6", "leaf 0 empty to 1/1"),
]

# a file, the queries, which of them is refused, and why; no answer is printed before
REFUSALS = [
    (TREE, "trace=0,0,24,0,0,40000", "1 refused: outside the cube"),
    (TREE, "trace=0,-32768,24,0,0,24", "1 refused: outside the cube"),
    (TREE, "trace=0,0,24,0,0,24 trace=32768,0,0,32768,0,0", "2 refused: outside the cube"),
    (TREE, "hulltrace=1,0,0,24,0,0,40000", "1 refused: outside the cube"),
    (TREE, "hulltrace=1,0,0,24,0,0,25", "1 refused: no part"),
    (with_sections(TREE, (2, cube_hull(2))), "hulltrace=2,0,0,24,0,0,25 hulltrace=1,0,0,24,0,0,25", "2 refused: no part"),
    (with_sections(TREE, (1, b"abc")), "hulltrace=1,0,0,24,0,0,25", "1 refused: bad part"),
    (with_sections(TREE, (1, b"abc")), "hulltrace=1,0,0,24,0,-32768,25", "1 refused: outside the cube"),
    # a plane so far away that places on a segment could be no exact fractions
    (parted(MOST + 1), "trace=0,0,0,1,1,1", "1 refused: plane too wide"),
    (parted(-MOST - 1), "at=0,0,0 trace=0,0,0,1,1,1", "2 refused: plane too wide"),
    (parted(MOST + 1), "trace=0,0,0,32768,0,0", "1 refused: outside the cube"),
    (with_sections(TREE, (1, parted(MOST + 1, False))), "hull=1,0,0,0 trace=0,0,0,1,1,1 hulltrace=1,0,0,0,1,1,1", "3 refused: plane too wide"),
]


def rows():
    for text, option, query, *spans in TRACES:
        yield Row(f"inspect out {query}", 0, "".join(f"{span}\n" for span in spans), {"map": text}, first=(f"compile map out --fast{option}",))
    for tree, queries, text in REFUSALS:
        yield Row(f"inspect tree {queries}", 9, f"query {text}\n", {"tree": tree})
    for distance, leaf in (MOST, "leaf 1 solid"), (-MOST, "leaf 0 empty"):
        yield Row("inspect tree trace=0,0,0,1,1,1", 0, f"{leaf} to 1/1\n", {"tree": parted(distance)})
    # in one call, and of a whole file
    yield Row("inspect tree hull=1,-8,0,0 trace=32,32,32,32,32,96 hulltrace=1,-8,0,0,-24,0,0 at=0,0,0", 0,
              "hull solid\nleaf 3 solid to 1/2\nleaf 2 empty to 1/1\nleaf 3 solid to 1/2\nleaf 6 empty to 1/1\nleaf 3 solid\n", {"tree": HULLED})
