"""Files of the cube, worked out by hand: its tree file in both versions, with sections and damaged, and the listing of its portals."""

import struct

from rows.worlds import CUBE, brush, summary

# the text, in one line before its faces, and what is printed of it
TEXT = ("{\n" + brush(CUBE) + "}\n").encode()
SUMMARY = summary("no entity", 1, 0, 6, 6, 7, 6, 0, 12, 34)

EMPTY, SOLID = -1, -2


def header(planes, nodes, leaves, numbered, bound=32768, sections=0):
    """The header of a file with rows, in version 2."""
    return b"QMTREE02" + struct.pack("<4QB2I", planes, nodes, leaves, numbered, 1, bound, sections)


# x = 0 and 64, y = 0 and 64, z = 0 and 64; the walk from the first node to the inside of the cube, whose leaves stand behind or in
# front of each plane in turn
PLANES = b"".join(struct.pack("<3iq", *(int(axis == at) for at in range(3)), place) for axis in range(3) for place in (0, 64))
NODES = b"".join(struct.pack("<I2q", *node) for node in ((0, 1, -7), (1, -1, 2), (2, 3, -6), (3, -2, 4), (4, 5, -5), (5, -3, -4)))


def leaves(inside):
    """The seven leaves: the inside is the fourth."""
    return b"".join(struct.pack("<iB", inside if number == 3 else EMPTY, 0) for number in range(7))


# the rows of the six leaves around: all see one another but those above and below, and those where the inside has a row too
ROWS_AROUND = bytes((0x3F, 0x3F, 0x37, 0x3B, 0x3F, 0x3F))
ROWS_WITH_INSIDE = bytes((0x77, 0x77, 0x67, 0x08, 0x73, 0x77, 0x77))

BODY = PLANES + NODES + leaves(SOLID) + ROWS_AROUND
TREE = header(6, 6, 7, 6) + BODY
# the same in the smaller world of version 1, and what that is upgraded to
FIRST_TREE = b"QMTREE01" + TREE[8:41] + BODY
SMALL_TREE = header(6, 6, 7, 6, 4096) + BODY
SECTIONS = b"".join(struct.pack("<IQ", kind, len(data)) + data for kind, data in ((1, b"abc"), (7, b""), (2 ** 32 - 1, b"\0")))
TREE_WITH_SECTIONS = header(6, 6, 7, 6, sections=3) + BODY + SECTIONS

# a world without brushes: one empty leaf, which sees itself
BARE_TREE = header(0, 0, 1, 1) + struct.pack("<iB", EMPTY, 0) + b"\1"
BARE_SUMMARY = summary("no entity", 0, 0, 0, 0, 1, 1, 0, 0, 1)

LISTING = b"""\
PRT1
6
12
4 1 5 (0 64 -32768 ) (0 64 32768 ) (0 32768 32768 ) (0 32768 -32768 ) 
4 2 5 (0 0 64 ) (0 0 32768 ) (0 64 32768 ) (0 64 64 ) 
4 3 5 (0 0 -32768 ) (0 0 0 ) (0 64 0 ) (0 64 -32768 ) 
4 4 5 (0 -32768 -32768 ) (0 -32768 32768 ) (0 0 32768 ) (0 0 -32768 ) 
4 0 1 (64 64 -32768 ) (64 64 32768 ) (64 32768 32768 ) (64 32768 -32768 ) 
4 0 2 (64 0 64 ) (64 0 32768 ) (64 64 32768 ) (64 64 64 ) 
4 0 3 (64 0 -32768 ) (64 0 0 ) (64 64 0 ) (64 64 -32768 ) 
4 0 4 (64 -32768 -32768 ) (64 -32768 32768 ) (64 0 32768 ) (64 0 -32768 ) 
4 2 4 (0 0 64 ) (64 0 64 ) (64 0 32768 ) (0 0 32768 ) 
4 3 4 (0 0 -32768 ) (64 0 -32768 ) (64 0 0 ) (0 0 0 ) 
4 1 2 (0 64 64 ) (64 64 64 ) (64 64 32768 ) (0 64 32768 ) 
4 1 3 (0 64 -32768 ) (64 64 -32768 ) (64 64 0 ) (0 64 0 ) 
"""


def tree_with(inside, numbered, rows):
    """The tree file where the cube holds something else."""
    return header(6, 6, 7, numbered) + PLANES + NODES + leaves(inside) + rows
