#!/usr/bin/env python3
"""Holds the surfaces of `tools/qmlook view` and `picture` to the tree, by areas in fractions.

    .ci/check_surfaces.py TREE..

Each face of each leaf is found anew, plane by plane, and cut where the leaves beyond it end. What a face of a solid leaf has
before a leaf that is not solid is filled once by the surfaces of that leaf there, and all surfaces before solid leaves have
no more area than this. Of a tree file with faces these are its surfaces before rock. What a leaf that is not solid has of other contents beyond each of its faces is filled by its surfaces
of these contents, and no surface lies elsewhere. And the leaves of other contents that it is said to touch are those it touches."""

from collections import defaultdict
from pathlib import Path
import sys

sys.path.insert(0, str(Path(__file__).resolve().parent.parent / "tools"))

from cells import Cells
from check_views import seen_of
import corners
from polygons import in_front, split, turned
import treefile

MOST_SAID = 20


def flat(polygon, plane):
    """A polygon without the axis along which its plane's normal is longest, going round against the clock."""
    across = max(range(3), key=lambda axis: abs(plane[axis]))
    points = [(point[(across + 1) % 3], point[(across + 2) % 3]) for point in polygon]
    return points if area(points) >= 0 else points[::-1]


def area(points):
    """Twice the area, with its sign."""
    return sum(a[0] * b[1] - b[0] * a[1] for a, b in zip(points, points[1:] + points[:1]))


def overlap(one, other):
    """Twice the area that two convex polygons have in common."""
    for first, second in zip(other, other[1:] + other[:1]):
        values = [(second[0] - first[0]) * (point[1] - first[1]) - (second[1] - first[1]) * (point[0] - first[0]) for point in one]
        kept = []
        for at, here in enumerate(values):
            there = values[at - 1]
            if here < 0 < there or there < 0 < here:
                part = there / (there - here)
                kept.append(tuple(a + part * (b - a) for a, b in zip(one[at - 1], one[at])))
            if here >= 0:
                kept.append(one[at])
        one = kept
    return area(one) if len(one) > 2 else 0


def faces(cells, leaf):
    """Each face of a leaf on the plane of a node: the node, whether the leaf lies to its front, and the polygon."""
    borders = cells.borders(leaf) + cells.walls
    for node, to_front in cells.way(leaf):
        polygon = in_front(cells.on_plane(cells.plane(node)), borders)
        if polygon:
            yield node, to_front, polygon


def pieces(tree, child, polygon):
    """The pieces of a polygon by the leaves into which its points lead below a child."""
    waiting = [(child, polygon)]
    while waiting:
        child, polygon = waiting.pop()
        if child < 0:
            yield -1 - child, polygon
            continue
        plane, front, back = tree.nodes[child]
        waiting += [(below, part) for below, part in zip((front, back), split(polygon, tree.planes[plane])) if part]


def contacts(tree, cells):
    """Where a leaf touches another one: both, the plane turned towards the first, and the polygon."""
    for leaf in range(len(tree.leaves)):
        for node, to_front, polygon in faces(cells, leaf):
            plane = turned(cells.plane(node), to_front)
            below = tree.nodes[node].back if to_front else tree.nodes[node].front
            for other, piece in pieces(tree, below, polygon):
                yield leaf, other, plane, flat(piece, plane)


def by_place(seen):
    """The surfaces by their leaf, their plane and the contents beyond."""
    found = defaultdict(list)
    for leaf, what in seen.items():
        for surface in what.surfaces:
            polygon = [corners.point(corner) for corner in surface.polygon]
            found[leaf, surface.plane, surface.beyond].append(flat(polygon, surface.plane))
    return found


def faults(tree):
    seen, due, due_of_solid, given_to_solid = seen_of(tree), defaultdict(int), 0, 0
    found, touched = by_place(seen), defaultdict(set)
    for leaf, other, plane, piece in contacts(tree, Cells(tree)):
        one, two = tree.leaves[leaf], tree.leaves[other]
        if one.number is not None and one.contents != two.contents:
            due[leaf, plane, two.contents] += area(piece)
            touched[leaf] |= {other} if two.number is not None else set()
        if one.number is None and two.number is not None:
            polygons = found[other, turned(plane, False), "solid"]
            if sum(overlap(piece, polygon) for polygon in polygons) != area(piece):
                yield f"where leaf {leaf}, which is solid, touches leaf {other} the surfaces do not fill its border once"
            due_of_solid += area(piece)
    for place in {*due, *found}:
        given = sum(map(area, found[place]))
        if given != due[place]:
            leaf, plane, beyond = place
            yield f"leaf {leaf} has surfaces of the area {given} before {beyond} on the plane {plane}, and a border of {due[place]}"
        given_to_solid += given if place[2] == "solid" else 0
    for leaf, what in seen.items():
        if what.touched != touched[leaf]:
            yield f"leaf {leaf} is said to touch {sorted(what.touched)}, and touches {sorted(touched[leaf])}"
    if given_to_solid != due_of_solid:
        yield f"surfaces before solid leaves have the area {given_to_solid}, and the borders {due_of_solid}"
    if not due:
        yield "it has no border that surfaces could fill"


def main():
    found = [f"{name}: {fault}" for name in sys.argv[1:] for fault in faults(treefile.load(name))]
    sys.exit("\n".join(found[:MOST_SAID]) or 0)


main()
