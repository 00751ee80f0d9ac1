"""Rows that several workers find, beside coarse ones; and a tree that one thread builds, and several."""

from pathlib import Path
import sys

from rows.table import Beside, Lines, Row
from rows.worlds import BOTH_SIDES, summary, world

TOP = Path(__file__).parent.parent.parent
sys.path.insert(0, str(TOP / "tools"))

import treefile  # noqa: E402

# eight generated rooms
ROOMS = TOP.joinpath("samples/rooms8.map").read_bytes()
# a world whose halves are built in parallel where there is more than one worker
HALVES, HALVES_COUNTS, HALVES_LENGTH = world(*BOTH_SIDES), (41, 0, 86, 94, 95, 54, 0, 188, 1192), 4552
# how long its file is with both hulls
HULLS_LENGTH = 10854


def lies_within(row, wide):
    """Whether a row of bytes has no place that another one lacks."""
    return len(row) == len(wide) and all(byte & ~other == 0 for byte, other in zip(row, wide))


def keeps_to(data, coarse):
    """Whether the tree is the same, and each of 24 rows lies within its own of the coarse ones."""
    tree, other = treefile.decode(data), treefile.decode(coarse)
    same = (tree.planes, tree.nodes, tree.leaves) == (other.planes, other.nodes, other.leaves)
    return same and len(tree.rows) == len(other.rows) == 24 and all(lies_within(*rows) for rows in zip(tree.rows, other.rows))


def is_same(data, other):
    """Whether two files have the same bytes, as many as the tree alone has."""
    return data == other and len(data) == HALVES_LENGTH


def has_same_hulls(data, other):
    """Whether two files have the same bytes, as many as the tree and both hulls have."""
    return data == other and len(data) == HULLS_LENGTH


def rows():
    for workers in (1, 4, 64):
        yield Row(f"compile map out --threads {workers}", 0, Lines("sealed\nbrushes 21\n"), {"map": ROOMS}, {"out": Beside("coarse", keeps_to)},
                  ("compile map coarse --fast",))
    for workers in (2, 8, 64):
        yield Row(f"compile map out --threads {workers} --fast", 0, summary("no entity", *HALVES_COUNTS), {"map": HALVES},
                  {"out": Beside("one", is_same)}, ("compile map one --threads 1 --fast",))
    yield Row("compile map out --threads 8 --fast --hulls", 0, summary("no entity", *HALVES_COUNTS), {"map": HALVES},
              {"out": Beside("one", has_same_hulls)}, ("compile map one --threads 1 --fast --hulls",))
