#!/usr/bin/env python3
"""Holds the rows that several workers find for levels to the coarse rows, and to lines.

    bench/rows.py PROGRAM WORKERS MAP..

Compiles each map, which does not leak, with `--fast` and with so many workers. The two trees are equal but for their rows. Each
row lies within the coarse one, and has what lines show: along a line between whole points, as far as contents stay what they are
where it begins, each leaf is seen from each other one. No number is rounded. Of each map it prints how many leaves its coarse rows
have in all, how many its rows have, and how many of these lines have shown; LINES is how many lines there are, 20000 where it is
not set."""

from fractions import Fraction
from os import environ
from pathlib import Path
import random
import subprocess
import sys
from tempfile import TemporaryDirectory

sys.path.insert(0, str(Path(__file__).resolve().parent.parent / "tools"))

import treefile

LINES = int(environ.get("LINES", "20000"))
# how far new points lie from those that were found, and how far lines go on each axis
REACHES, FAR = (2, 8, 64, 512), 2048


def points(tree, rng):
    """Whole points in numbered leaves that are not filled: some anywhere, most near the first that was found in some leaf."""
    kept, met = [], set()
    while True:
        if kept and rng.random() < 0.9:
            reach = rng.choice(REACHES)
            point = tuple(number + rng.randint(-reach, reach) for number in rng.choice(kept))
        else:
            point = tuple(rng.randrange(1 - tree.bound, tree.bound) for _ in range(3))
        number = tree.leaf_at(point)
        leaf = tree.leaves[number]
        if leaf.number is not None and not leaf.filled and max(map(abs, point)) < tree.bound:
            if number not in met:
                met.add(number)
                kept.append(point)
            yield point


def along(tree, first, last):
    """The leaves along a line from one point to another, in order, each with the part of the line at which it begins; None where
    the line lies in the plane of a node."""
    waiting = [(tree.root(), Fraction(0), Fraction(1))]
    while waiting:
        child, low, high = waiting.pop()
        if child < 0:
            yield -1 - child, low
            continue
        plane, front, back = tree.nodes[child]
        here, there = (treefile.value(tree.planes[plane], point) for point in (first, last))
        begin, finish = (here + (there - here) * part for part in (low, high))
        if min(begin, finish) >= 0 or max(begin, finish) <= 0:
            if begin == 0 == finish:
                yield None
                return
            waiting.append((front if begin + finish > 0 else back, low, high))
        else:
            cut = Fraction(here, here - there)
            near, far = (front, back) if begin > 0 else (back, front)
            waiting += [(far, cut, high), (near, low, cut)]


def clear(tree, first, last):
    """The leaves along a line as far as contents stay what they are at its beginning, and where the last of them begins; none where
    it begins on the rim of solid."""
    passed, end = [], 0
    for found in along(tree, first, last):
        if found is None or tree.leaves[found[0]].contents != tree.leaves[(passed or found)[0]].contents:
            break
        if tree.leaves[found[0]].number is None:
            break
        passed.append(found[0])
        end = found[1]
    return passed, end


def is_generic(tree, first, last, end):
    """Whether a line begins on no plane of a node, and is on no two of them at once, as far as a part of it."""
    crossed = []
    for plane in {node.plane for node in tree.nodes}:
        here, there = (treefile.value(tree.planes[plane], point) for point in (first, last))
        if here == 0:
            return False
        if (here > 0) != (there > 0):
            crossed.append(Fraction(here, here - there))
    crossed = [part for part in crossed if part <= end]
    return len(set(crossed)) == len(crossed)


def faults_along(tree, rows, shown, first, last):
    """The leaves that rows lack which a line shows. What it shows is noted."""
    passed, end = clear(tree, first, last)
    numbers = [tree.leaves[leaf].number for leaf in passed]
    whole = sum(1 << number for number in numbers)
    lacking = [number for number in numbers if whole & ~rows[number]]
    if not lacking:
        for number in numbers:
            shown[number] |= whole
    elif is_generic(tree, first, last, end):
        yield from (f"row {number} lacks a leaf that is seen from {first} to {last}" for number in lacking)


def faults_of_lines(tree, rows, shown):
    rng = random.Random(5)
    firsts = points(tree, rng)
    for _ in range(LINES):
        first = next(firsts)
        last = tuple(number + rng.randint(-FAR, FAR) for number in first)
        if last != first and max(map(abs, last)) < tree.bound:
            yield from faults_along(tree, rows, shown, first, last)


def as_numbers(tree):
    """The row of each numbered leaf, its first place in the lowest bit."""
    return [int.from_bytes(row, "little") for row in tree.rows]


def compiled(program, name, out, *words):
    subprocess.run([program, "compile", name, out, *words], check=True, stdout=subprocess.DEVNULL)
    return treefile.load(out)


def faults(program, workers, name, out):
    """What is wrong with the rows of a map."""
    coarse = compiled(program, name, out, "--fast")
    tree = compiled(program, name, out, "--threads", workers)
    if tree._replace(rows=None) != coarse._replace(rows=None):
        yield "the trees are not equal"
        return
    rows, wide = as_numbers(tree), as_numbers(coarse)
    yield from (f"row {number} has more than the coarse one" for number, row in enumerate(rows) if row & ~wide[number])
    shown = [0] * len(rows)
    yield from faults_of_lines(tree, rows, shown)
    counts = [sum(bin(row).count("1") for row in some) for some in (wide, rows, shown)]
    print(f"{Path(name).stem}: {counts[0]} coarse, {counts[1]} in rows, {counts[2]} shown by lines", flush=True)


def main(program, workers, *names):
    with TemporaryDirectory() as folder:
        found = [f"{name}: {fault}" for name in names for fault in faults(program, workers, name, f"{folder}/out.tree")]
    sys.exit("\n".join(found[:20]) or 0)


if __name__ == "__main__":
    main(*sys.argv[1:])
