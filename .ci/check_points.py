#!/usr/bin/env python3
"""Holds the point file of a leak to its trail: its leak line goes through the leaves of the trail, one after another
and through no other, and ends on a wall of the cube.

    .ci/check_points.py TREE POINTS TRAIL

Each piece of the line is cut at the planes of the tree without rounding, from the decimals as they stand in the file."""

from fractions import Fraction
from pathlib import Path
import sys

sys.path.insert(0, str(Path(__file__).resolve().parent.parent / "tools"))

import treefile


def met(tree, first, second):
    """The leaves that a piece of the line goes through, in its order. What lies in a plane is in front of it."""
    found, waiting = [], [(tree.root(), Fraction(0), Fraction(1))]
    while waiting:
        child, low, high = waiting.pop()
        if child < 0:
            found.append(-1 - child)
            continue
        node = tree.nodes[child]
        here, there = (treefile.value(tree.planes[node.plane], end) for end in (first, second))
        begin, end = here + low * (there - here), here + high * (there - here)
        if min(begin, end) >= 0:
            waiting.append((node.front, low, high))
        elif max(begin, end) <= 0:
            waiting.append((node.back, low, high))
        else:
            cut = here / (here - there)
            before, behind = (node.back, node.front) if begin < 0 else (node.front, node.back)
            waiting += [(behind, cut, high), (before, low, cut)]
    return found


def main():
    tree, trail = treefile.load(sys.argv[1]), [int(word) for word in sys.argv[3].split()]
    line = [tuple(Fraction(word) for word in text.split()) for text in Path(sys.argv[2]).read_text().splitlines()]
    if len(line) != 2 * len(trail) or any(len(point) != 3 for point in line):
        sys.exit(f"the line has {len(line)} points, and should have two for each of {len(trail)} leaves")
    leaves = [leaf for first, second in zip(line, line[1:]) for leaf in met(tree, first, second)]
    passed = [leaf for at, leaf in enumerate(leaves) if at == 0 or leaf != leaves[at - 1]]
    if passed != trail:
        sys.exit(f"the line goes through the leaves {passed}, and the trail is {trail}")
    if max(abs(number) for number in line[-1]) != tree.bound:
        sys.exit("the line does not end on a wall of the cube")


main()
