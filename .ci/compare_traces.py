#!/usr/bin/env python3
"""Compares the traces that `PROGRAM inspect` prints with those of the plain slow trace, through the same tree files.

    .ci/compare_traces.py PROGRAM [-n COUNT] TREE..

Through each tree, and through some that are made here, COUNT segments are traced (1,000 without `-n`), 20 in a call: between any
two points, with ends on planes of nodes, along a plane, through points where planes meet, between the farthest corners of the
cube, and from a point to itself. Then come segments that are refused."""

from fractions import Fraction
from pathlib import Path
import random
import subprocess
import sys
import tempfile

sys.path.insert(0, str(Path(__file__).resolve().parent.parent / "tools"))

from compare_answers import made
from slow_trace import fits, lines, value
import treefile

MILLION = 1000000
AT_ONCE = 20


def spelled(coordinate):
    """A coordinate in millionths as a word spells it."""
    sign, whole, parts = "-" if coordinate < 0 else "", *divmod(abs(coordinate), MILLION)
    return f"{sign}{whole}" + (f".{parts:06d}".rstrip("0") if parts else "")


def word(start, end):
    return "trace=" + ",".join(map(spelled, [*start, *end]))


def anywhere(draw, tree, reach):
    """A point near the middle or anywhere in the cube, whole or in millionths."""
    farthest = draw.choice([64, 512, reach, tree.bound - 1])
    step = draw.choice([1, 500000, MILLION, 16 * MILLION])
    return tuple(draw.randint(-farthest * MILLION // step, farthest * MILLION // step) * step for _ in range(3))


def on_plane(draw, tree, point):
    """The point moved along an axis onto a plane of a node, if it is there in millionths and inside the cube."""
    plane = tree.planes[draw.choice(tree.nodes).plane]
    axis = draw.choice([k for k in range(3) if plane[k]])
    moved = list(map(Fraction, point))
    moved[axis] -= value((*plane[:3], plane[3] * MILLION), point) / Fraction(plane[axis])
    if moved[axis].denominator == 1 and abs(moved[axis]) < tree.bound * MILLION:
        return tuple(map(int, moved))
    return point


def on_planes(draw, tree, point, times):
    for _ in range(times):
        point = on_plane(draw, tree, point)
    return point


def beyond(start, middle, bound):
    """The point as far behind the middle as the start lies before it, or the middle where that lies outside the cube."""
    end = tuple(2 * m - s for s, m in zip(start, middle))
    return end if max(map(abs, end)) < bound * MILLION else middle


def corner(draw, tree):
    """A point in the farthest corner of the cube, by a millionth or by a unit."""
    farthest = tree.bound * MILLION - draw.choice([1, MILLION])
    return tuple(draw.choice([-1, 1]) * farthest for _ in range(3))


def segment(draw, tree, reach):
    """The two ends of a segment of some sort."""
    start, end = anywhere(draw, tree, reach), anywhere(draw, tree, reach)
    kind = draw.randrange(10)
    if not tree.nodes or kind < 2:
        return start, end
    if kind < 4:  # with ends on planes
        return on_planes(draw, tree, start, draw.randint(0, 3)), on_planes(draw, tree, end, draw.randint(1, 3))
    if kind < 6:  # through a point where planes meet
        return start, beyond(start, on_planes(draw, tree, end, draw.randint(2, 3)), tree.bound)
    if kind < 8:  # along an axis, and so along planes across the others
        start = on_planes(draw, tree, start, 3)
        axis = draw.randrange(3)
        return start, tuple(e if k == axis else s for k, (s, e) in enumerate(zip(start, end)))
    if kind < 9:
        return corner(draw, tree), corner(draw, tree)
    return start, start


def due(tree, segments):
    """The status to end with, and what has to be printed of some segments."""
    printed = []
    for number, ends in enumerate(segments, 1):
        if max(abs(c) for at in ends for c in at) >= tree.bound * MILLION:
            return 9, f"query {number} refused: outside the cube\n"
        if not fits(tree):
            return 9, f"query {number} refused: plane too wide\n"
        printed += lines(tree, *(tuple(Fraction(c, MILLION) for c in at) for at in ends))
    return 0, "".join(f"{line}\n" for line in printed)


def fault(program, name, tree, segments):
    """What is wrong with the answers to some segments that are asked for in one call, or None."""
    words = [word(*ends) for ends in segments]
    ran = subprocess.run([program, "inspect", name, *words], capture_output=True, text=True, check=False)
    found, wanted = (ran.returncode, ran.stdout + ran.stderr), due(tree, segments)
    return None if found == wanted else f"{name}, asked {words[:3]}: {str(found)[:300]}, and due are {str(wanted)[:300]}"


def outside(tree):
    """Segments of which one end is on the cube, or both are, behind one that is inside."""
    middle, wall = (0, 0, 0), (0, 0, tree.bound * MILLION)
    for ends in [(middle, wall), (wall, middle), (wall, wall)]:
        yield [(middle, middle), ends]


def faults(program, name, count):
    """For each call with segments through a tree what is wrong with its answers, or None."""
    tree, draw = treefile.load(name), random.Random(1)
    reach = max([1, *(abs(plane[3]) for plane in tree.planes if sorted(plane[:3]) == [0, 0, 1])])
    for _ in range(count // AT_ONCE):
        yield fault(program, name, tree, [segment(draw, tree, min(reach, tree.bound - 1)) for _ in range(AT_ONCE)])
    for segments in outside(tree):
        yield fault(program, name, tree, segments)


def main():
    program, *names = sys.argv[1:]
    count = 1000
    if names[:1] == ["-n"]:
        count, names = int(names[1]), names[2:]
    with tempfile.TemporaryDirectory() as folder:
        found = [each for name in [*names, *made(folder)] for each in faults(program, name, count)]
    wrong = list(filter(None, found))
    print(*wrong[:20], f"{len(found)} calls, {len(wrong)} wrong", sep="\n")
    sys.exit(1 if wrong else 0)


if __name__ == "__main__":
    main()
