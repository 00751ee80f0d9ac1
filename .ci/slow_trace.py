"""A plain slow trace of a segment through a tree file, in exact fractions: each piece between two neighbouring crossings of
planes of nodes has the leaf of its middle, and pieces of one leaf that follow one another are one span."""

from fractions import Fraction

# the farthest plane that a segment is traced through: three components of a normal, times how far the world reaches
FARTHEST = 3 * 2 ** 26 * 32768


def fits(tree):
    """Whether no plane of a node is too far."""
    return all(abs(tree.planes[node.plane][3]) <= FARTHEST for node in tree.nodes)


def value(plane, point):
    """What a plane makes of a point: below 0 behind it, above 0 in front of it."""
    return sum(n * x for n, x in zip(plane[:3], point)) - plane[3]


def between(start, end, place):
    """The point at a place of the segment."""
    return tuple(a + (b - a) * place for a, b in zip(start, end))


def places(tree, start, end):
    """The places strictly within the segment at which it crosses a plane of a node, in order."""
    found = set()
    for node in tree.nodes:
        plane = tree.planes[node.plane]
        first, last = value(plane, start), value(plane, end)
        if first * last < 0:
            found.add(Fraction(first) / (first - last))
    return sorted(found)


def trace(tree, start, end):
    """The spans of the segment: each the number of its leaf, and the place at which it ends."""
    spans, before = [], Fraction(0)
    for place in [*places(tree, start, end), Fraction(1)]:
        leaf = tree.leaf_at(between(start, end, (before + place) / 2))
        if spans and spans[-1][0] == leaf:
            spans.pop()
        spans.append((leaf, place))
        before = place
    return spans


def lines(tree, start, end):
    """What `inspect` prints of the trace."""
    for leaf, place in trace(tree, start, end):
        found = tree.leaves[leaf]
        filled = " filled" if found.filled else ""
        yield f"leaf {leaf} {found.contents}{filled} to {place.numerator}/{place.denominator}"
