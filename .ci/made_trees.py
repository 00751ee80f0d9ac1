"""Tree files made here, without the compiler: of one cube, of trees of random shape, and of one whose rows have long runs of
zeros. `.ci/compare_files.py` alters them, and `.ci/check_treefile_page.py` reads their rows."""

from math import gcd
from pathlib import Path
import struct
import sys

sys.path.insert(0, str(Path(__file__).resolve().parent.parent / "tools"))

from maptext import EXTENT

CODES = {"empty": -1, "solid": -2, "water": -3, "slime": -4, "lava": -5, "sky": -6}
SOLID = -2


def in_runs(row):
    """The bytes of a row, with its zeros in runs."""
    out, at = bytearray(), 0
    while at < len(row):
        if row[at]:
            out.append(row[at])
            at += 1
        else:
            end = at
            while end < len(row) and end - at < 255 and row[end] == 0:
                end += 1
            out += bytes([0, end - at])
            at = end
    return bytes(out)


def tree_file(planes, nodes, leaves, rows, version=2, bound=EXTENT, sections=()):
    """The bytes of a file: a leaf is the code of its contents and whether it is filled, a row the set of what it holds, a section
    its kind and its bytes. Version 1 says nothing of the bound, and has no sections."""
    numbered = sum(code != SOLID for code, _ in leaves)
    out = b"QMTREE0%d" % version + struct.pack("<4QB", len(planes), len(nodes), len(leaves), numbered, rows is not None)
    if version == 2:
        out += struct.pack("<2I", bound, len(sections))
    out += b"".join(struct.pack("<3iq", *plane) for plane in planes)
    out += b"".join(struct.pack("<Iqq", *node) for node in nodes)
    out += b"".join(struct.pack("<iB", *leaf) for leaf in leaves)
    for row in rows or ():
        width = (numbered + 7) // 8
        out += in_runs(sum(1 << place for place in row).to_bytes(width, "little"))
    if version == 2:
        out += b"".join(struct.pack("<IQ", kind, len(data)) + data for kind, data in sections)
    return out


def written(tree, version=None):
    """The bytes of a tree as `tools/treefile.py` reads it, in its own version or in another one."""
    rows = None if tree.rows is None else [set(tree.row(own)) for own in range(len(tree.rows))]
    leaves = [(CODES[leaf.contents], leaf.filled) for leaf in tree.leaves]
    return tree_file(tree.planes, tree.nodes, leaves, rows, version or tree.version, tree.bound, tree.sections)


def cube(*form):
    """One cube, and the rows of its six leaves that are not solid. Behind these stand the version, bound and sections, where they
    are not those that the compiler writes."""
    planes = [(1, 0, 0, 0), (1, 0, 0, 64), (0, 1, 0, 0), (0, 1, 0, 64), (0, 0, 1, 0), (0, 0, 1, 64)]
    nodes = [(0, 1, -7), (1, -1, 2), (2, 3, -6), (3, -2, 4), (4, 5, -5), (5, -3, -4)]
    leaves = [(-1, 0), (-1, 0), (-1, 0), (SOLID, 0), (-1, 0), (-1, 0), (-1, 0)]
    everything = set(range(6))
    rows = [everything - {3} if k == 2 else everything - {2} if k == 3 else everything for k in range(6)]
    return tree_file(planes, nodes, leaves, rows, *form)


def random_tree(rng, count, with_rows, *form):
    """A tree of so many nodes of random shape, numbered front first; behind that as for the cube."""
    planes, nodes, leaves = [], [], []
    while len(planes) < 5:
        plane = tuple(rng.randrange(-2 ** 26, 2 ** 26 + 1) for _ in range(3)) + (rng.randrange(-2 ** 44, 2 ** 44 + 1),)
        if plane[0] > 0 and gcd(gcd(plane[0], plane[1]), gcd(plane[2], plane[3])) == 1:
            planes.append(plane)
    due = [(count, None)]
    while due:
        size, parent = due.pop()
        number = len(nodes) if size else -1 - len(leaves)
        if parent:
            parent[0][parent[1]] = number
        if size:
            node = [rng.randrange(len(planes)), 0, 0]
            nodes.append(node)
            front = rng.randrange(size)
            due += [(size - 1 - front, (node, 2)), (front, (node, 1))]
        else:
            code = rng.randrange(-6, 0)
            leaves.append((code, code == SOLID and rng.random() < 0.5))
    numbered = sum(code != SOLID for code, _ in leaves)
    rows = [{k} | {place for place in range(numbered) if rng.random() < 0.1} for k in range(numbered)]
    return tree_file(planes, nodes, leaves, rows if with_rows else None, *form)


def long_tree(count):
    """Empty leaves in a row, each of which sees itself and the last one alone."""
    nodes = [(0, -1 - k, k + 1 if k + 1 < count else -2 - k) for k in range(count)]
    rows = [{k, count} for k in range(count + 1)]
    return tree_file([(1, 0, 0, 0)], nodes, [(-1, 0)] * (count + 1), rows)
