"""Tree files of both versions, with sections and without, and bytes that are no tree file: what `inspect` and `upgrade` make of them."""

import struct

from rows.cube_files import BARE_TREE, EMPTY, FIRST_TREE, SMALL_TREE, SOLID, TREE, TREE_WITH_SECTIONS, header
from rows.table import Row

# of the cube's files in version 2, and in version 1, which has eight bytes less: where other bytes stand and which, how many of the first
# bytes are kept, and the fault
DAMAGED = [
    # cut off
    (0, b"", 0, "1 at byte 0: short"),
    (0, b"", 39, "1 at byte 39: short"),
    (0, b"", 40, "1 at byte 40: short"),
    (0, b"", 329, "1 at byte 329: short"),
    # magic bytes of neither version
    (0, b"\0", 330, "2 at byte 0: magic"),
    (7, b"3", 330, "2 at byte 7: magic"),
    # 8 leaves, 8 numbered ones, 5 numbered ones, no flag
    (24, b"\x08", 330, "3 at byte 24: counts"),
    (32, b"\x08", 330, "3 at byte 32: counts"),
    (32, b"\x05", 330, "3 at byte 32: counts"),
    (40, b"\x02", 330, "3 at byte 40: counts"),
    # the bound 5000; the same behind a flag that is none, before a plane that is none, and cut off
    (41, b"\x88\x13", 330, "10 at byte 41: header form"),
    (40, b"\x02\x88\x13", 330, "3 at byte 40: counts"),
    (41, b"\x88\x13" + bytes(12), 330, "10 at byte 41: header form"),
    (41, b"\x88\x13", 44, "1 at byte 44: short"),
    # a section, which is not there, and one of the kind 0
    (45, b"\x01", 330, "1 at byte 330: short"),
    (45, b"\x01", 342, "11 at byte 330: section form"),
    # a plane of zeros, a plane turned round
    (49, bytes(20), 330, "4 at byte 49: plane form"),
    (69, b"\xff\xff\xff\xff", 330, "4 at byte 69: plane form"),
    # node 2 in front of node 0; a fault of node 3 stands at the place of node 0
    (173, b"\x02", 330, "5 at byte 169: node order"),
    (229, b"\x06", 330, "5 at byte 169: node order"),
    # a leaf of no contents, and one that is cut off
    (289, bytes(4), 330, "6 at byte 289: leaf form"),
    (289, bytes(4), 293, "1 at byte 293: short"),
    # a row without its own place
    (329, b"\x1f", 330, "7 at byte 329: row form"),
    # bytes behind the file
    (0, b"", 331, "8 at byte 330: trailing"),
    (0, b"", 330 + 65_536, "8 at byte 330: trailing"),
]
FIRST_DAMAGED = [
    (0, b"", 40, "1 at byte 40: short"),
    (0, b"", 321, "1 at byte 321: short"),
    (0, b"\0", 322, "2 at byte 0: magic"),
    (7, b"0", 322, "2 at byte 7: magic"),
    # the magic bytes of version 2
    (7, b"2", 322, "10 at byte 41: header form"),
    (24, b"\x08", 322, "3 at byte 24: counts"),
    (32, b"\x08", 322, "3 at byte 32: counts"),
    (32, b"\x05", 322, "3 at byte 32: counts"),
    (40, b"\x02", 322, "3 at byte 40: counts"),
    (41, bytes(20), 322, "4 at byte 41: plane form"),
    (61, b"\xff\xff\xff\xff", 322, "4 at byte 61: plane form"),
    (165, b"\x02", 322, "5 at byte 161: node order"),
    (221, b"\x06", 322, "5 at byte 161: node order"),
    (281, bytes(4), 322, "6 at byte 281: leaf form"),
    (281, bytes(4), 285, "1 at byte 285: short"),
    (321, b"\x1f", 322, "7 at byte 321: row form"),
    (0, b"", 323, "8 at byte 322: trailing"),
]

MOST = 2 ** 64 - 1
# what a header promises, with nothing behind it: planes, nodes, leaves, numbered leaves, and the fault in version 1 and in version 2,
# which promises as many sections as can be. No memory is taken for what is promised
PROMISES = [
    # more planes than 32 bits number
    (2 ** 32, 0, 1, 1, "3 at byte 8: counts", "3 at byte 8: counts"),
    (2 ** 32, 0, 0, 0, "3 at byte 8: counts", "3 at byte 8: counts"),
    # one node more would be none
    (1, MOST, 0, 0, "3 at byte 24: counts", "3 at byte 24: counts"),
    (4_000_000_000, 0, 1, 1, "1 at byte 41: short", "1 at byte 49: short"),
    (4_000_000_000, 0, 1, 0, "1 at byte 41: short", "1 at byte 49: short"),
    (0, MOST - 1, MOST, MOST, "1 at byte 41: short", "1 at byte 49: short"),
    (0, 0, 1, 2, "3 at byte 32: counts", "3 at byte 32: counts"),
]

# of a world without brushes: how many sections are promised, the head of the first one, its kind and its length, what stands behind it, and
# the fault
SECTIONS = [
    (2 ** 32 - 1, (1, 33), bytes(33), "1 at byte 100: short"),
    (2 ** 32 - 1, (1, 0), bytes(33), "11 at byte 67: section form"),
    (1, (1, MOST), bytes(33), "1 at byte 100: short"),
    (1, (2 ** 32 - 1, 34), bytes(33), "1 at byte 100: short"),
    (1, (0, MOST), bytes(33), "11 at byte 55: section form"),
    (1, (1, 32), bytes(33), "8 at byte 99: trailing"),
    # two sections of one kind, two that do not ascend, one of the kind 0 before another
    (2, (7, 0), struct.pack("<IQ", 7, 0), "11 at byte 67: section form"),
    (2, (7, 0), struct.pack("<IQ", 6, 0), "11 at byte 67: section form"),
    (2, (0, 0), struct.pack("<IQ", 7, 0), "11 at byte 55: section form"),
]

PARTS = "version 2 bound 32768 parts 1 7 4294967295\n"
# points inside the cube, on its border and around it, with what the tree says of each
POINTS = [
    ("32,32,32", "3 solid"), ("0.5,63.5,63.5", "3 solid"), ("0,0,0", "3 solid"), ("64,32,32", "0 empty number 0"),
    ("64.5,-0.5,-0.5", "0 empty number 0"), ("32,64,32", "1 empty number 1"), ("32,32,64", "2 empty number 2"),
    ("32,32,-0.5", "4 empty number 3"), ("32,-0.5,100", "5 empty number 4"), ("-0.5,32,32", "6 empty number 5"),
]
ASKED = [
    (FIRST_TREE, "parts", 0, "version 1 bound 4096 parts\n"),
    (TREE, " ".join(f"at={at}" for at, _ in POINTS), 0, "".join(f"leaf {leaf}\n" for _, leaf in POINTS)),
    (TREE_WITH_SECTIONS, "parts at=4096,0,0 parts count", 0,
     f"{PARTS}leaf 0 empty number 0\n{PARTS}planes 6 nodes 6 leaves 7 numbered 6 rows yes\n"),
    (TREE_WITH_SECTIONS, "at=-32767.999999,0,0", 0, "leaf 6 empty number 5\n"),
    (TREE_WITH_SECTIONS, "parts at=0,-32768,0", 9, "query 2 refused: outside the cube\n"),
]

# a file, its version, and what it is upgraded to
UPGRADED = [(FIRST_TREE, 1, SMALL_TREE), (SMALL_TREE, 2, SMALL_TREE), (TREE, 2, TREE), (TREE_WITH_SECTIONS, 2, TREE_WITH_SECTIONS)]

# how many nodes stand in a row in the longest files
LONG = 1_000_000


def damaged(tree, place, others, kept):
    """A file with other bytes from a place on, and of another length: zeros stand behind what there was."""
    data = tree[:place] + others + tree[place + len(others):]
    return data[:kept].ljust(kept, b"\0")


def promising(planes, nodes, leaves, numbered):
    """A header in both versions."""
    counts = struct.pack("<4QB", planes, nodes, leaves, numbered, 1)
    return b"QMTREE01" + counts, b"QMTREE02" + counts + struct.pack("<2I", 4096, 2 ** 32 - 1)


def with_sections(count, head, behind):
    """A world without brushes that says that it has so many sections, and the first one."""
    return header(0, 0, 1, 1, 4096, count) + BARE_TREE[49:] + struct.pack("<IQ", *head) + behind


def no_trees():
    """Bytes that are no tree file, with the fault."""
    for tree, table in ((TREE, DAMAGED), (FIRST_TREE, FIRST_DAMAGED)):
        for place, others, kept, fault in table:
            yield damaged(tree, place, others, kept), fault
    for *counts, first_fault, fault in PROMISES:
        yield from zip(promising(*counts), (first_fault, fault))
    for count, head, behind, fault in SECTIONS:
        yield with_sections(count, head, behind), fault


def in_a_row(version, at, nodes, code):
    """A file whose nodes stand in a row on the plane x = at, each below the one before it, with leaves of one contents and no rows."""
    numbered = 0 if code == SOLID else LONG + 1
    head = b"QMTREE0%d" % version + struct.pack("<4QB", 1, LONG, LONG + 1, numbered, 0)
    bound = struct.pack("<2I", 32768, 0) if version == 2 else b""
    parts = struct.pack("<3iq", 1, 0, 0, at) + b"".join(struct.pack("<I2q", 0, *node) for node in nodes)
    return head + bound + parts + (LONG + 1) * struct.pack("<iB", code, 0)


def behind():
    """The children of nodes of which each is behind the one before it."""
    return ((-1 - number, number + 1 if number + 1 < LONG else -1 - LONG) for number in range(LONG))


def in_front():
    """The children of nodes of which each is in front of the one before it."""
    return ((number + 1 if number + 1 < LONG else -1, number - LONG - 1) for number in range(LONG))


def long_rows():
    """Files of a million nodes in a row: of version 1, where the others are behind the first node, and of version 2."""
    counts = f"planes 1 nodes {LONG} leaves {LONG + 1} numbered"
    first = in_a_row(1, 0, behind(), SOLID)
    assert len(first) == 25_000_066
    yield Row("inspect tree count at=1,0,0 at=-1,0,0", 0, f"{counts} 0 rows no\nleaf 0 solid\nleaf {LONG} solid\n", {"tree": first})
    second = in_a_row(2, 8, in_front(), EMPTY)
    yield Row("inspect tree count at=8,0,0 at=7,0,0", 0,
              f"{counts} {LONG + 1} rows no\nleaf 0 empty number 0\nleaf {LONG} empty number {LONG}\n", {"tree": second})
    yield Row("upgrade tree out", 0, "version 2 to 2\n", {"tree": second}, {"out": second})


def rows():
    for tree, queries, status, printed in ASKED:
        yield Row(f"inspect tree {queries}", status, printed, {"tree": tree})
    for tree, version, newest in UPGRADED:
        yield Row("upgrade tree out", 0, f"version {version} to 2\n", {"tree": tree}, {"out": newest})
        for data in (tree, newest):
            yield Row("inspect tree row=2", 0, "row 2: 0 1 2 4 5\n", {"tree": data})
    for data, fault in no_trees():
        for words in ("inspect tree count row=99", "upgrade tree out"):
            yield Row(words, 8, f"tree fault {fault}\n", {"tree": data})
    yield from long_rows()
