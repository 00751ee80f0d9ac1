#!/usr/bin/env python3
"""The counts of crates/wind_bench once more, by fractions without bound and with nothing in common with it:
a winding is the list of its corners, cut corner by corner. What this prints for one round is
crates/wind_bench/stdout. `bench/counts.py ROUNDS` counts more rounds, slowly."""

from fractions import Fraction
from math import gcd
import sys

# how far from 0 the cube reaches, and a part of it: what is drawn in the whole cube lies on this grid, so that no plane is too fine
EXTENT = 32768
PARTS = 4096
UNIT = EXTENT // PARTS


def value(plane, place):
    return sum(n * x for n, x in zip(plane, place)) - plane[3]


def flipped(plane):
    return tuple(-n for n in plane)


def through(a, b, c):
    """The plane through three points in lowest terms, its first number that is not 0 positive."""
    u, v = ([p[i] - b[i] for i in range(3)] for p in (a, c))
    normal = [u[1] * v[2] - u[2] * v[1], u[2] * v[0] - u[0] * v[2], u[0] * v[1] - u[1] * v[0]]
    if not any(normal):
        return (1, 0, 0, 0)
    numbers = normal + [sum(n * x for n, x in zip(normal, b))]
    factor = gcd(*numbers)
    if next(n for n in normal if n) < 0:
        factor = -factor
    return tuple(n // factor for n in numbers)


def clip(polygon, plane):
    """What is left in front of the plane: whole, gone, or cut with the corners that are left."""
    values = [value(plane, place) for place in polygon]
    if max(values) <= 0:
        return "gone", None
    if min(values) >= 0:
        return "whole", None
    kept = []
    for i, (place, here) in enumerate(zip(polygon, values)):
        other, there = polygon[(i + 1) % len(polygon)], values[(i + 1) % len(polygon)]
        if here >= 0:
            kept.append(place)
        if here * there < 0:
            part = Fraction(here) / (here - there)
            kept.append(tuple(x + part * (y - x) for x, y in zip(place, other)))
    return "cut", kept


class Numbers:
    """A linear congruential generator of 64 bits."""

    def __init__(self):
        self.state = 1

    def next(self):
        self.state = (self.state * 6364136223846793005 + 1442695040888963407) % 2**64
        return self.state >> 33

    def plane(self, reach, unit=1):
        return through(*[[unit * (self.next() % (2 * reach + 1) - reach) for _ in range(3)] for _ in range(3)])


def random_planes(count):
    numbers = Numbers()
    return [numbers.plane(PARTS, UNIT) for _ in range(count)]


def steps(count):
    return 64 * count - 2048


def across(axis, count):
    return tuple(int(i == axis) for i in range(3)) + (steps(count),)


def faces_of_box(numbers):
    low = [numbers.next() % 48 for _ in range(3)]
    high = [at + 1 + numbers.next() % 16 for at in low]
    for axis in range(3):
        u, v = (axis + 1) % 3, (axis + 2) % 3
        for end in (low[axis], high[axis]):
            face = []
            for a, b in ((low[u], low[v]), (high[u], low[v]), (high[u], high[v]), (low[u], high[v])):
                place = {axis: steps(end), u: steps(a), v: steps(b)}
                face.append(tuple(place[i] for i in range(3)))
            yield face


def tree_plane(numbers, place):
    if place % 8 == 7:
        return numbers.plane(2048)
    axis = numbers.next() % 3
    return across(axis, numbers.next() % 65)


def push_down(faces, planes, counts):
    pieces = [(face, 0) for face in faces]
    for _ in range(10):
        below = []
        for piece, node in pieces:
            plane = planes[node]
            front, in_front = clip(piece, plane)
            back, behind = clip(piece, flipped(plane))
            if front == "cut":
                counts["cut"] += 1
                counts["corners"] += len(in_front) + len(behind)
                below += [(in_front, 2 * node + 1), (behind, 2 * node + 2)]
            elif front == back:
                counts["gone"] += 1
            else:
                counts["whole"] += 1
                below.append((piece, 2 * node + (1 if front == "whole" else 2)))
        pieces = below


def behind(polygon, planes):
    for plane in planes:
        kind, kept = clip(polygon, flipped(plane))
        if kind == "cut":
            polygon = kept
    return polygon


SQUARE = [(-EXTENT, -EXTENT, 0), (EXTENT, -EXTENT, 0), (EXTENT, EXTENT, 0), (-EXTENT, EXTENT, 0)]
SOME, LESS, MORE, NEAR = (UNIT * number for number in (3000, 2000, 4000, 3968))
SLANTS = [
    through((SOME, SOME, 0), (SOME, SOME, 1), (LESS, MORE, 0)),
    through((SOME, -SOME, 0), (SOME, -SOME, 1), (LESS, -MORE, 0)),
    flipped(through((-SOME, SOME, 0), (-SOME, SOME, 1), (-LESS, MORE, 0))),
    flipped(through((-SOME, -SOME, 0), (-SOME, -SOME, 1), (-LESS, -MORE, 0))),
]
NEAR_CORNER = [
    flipped(through((NEAR, 0, 0), (NEAR, 1, 0), (NEAR, 0, 1))),
    flipped(through((0, NEAR, 0), (1, NEAR, 0), (0, NEAR, 1))),
]
STARTS = {
    "squares": SQUARE,
    "octagons": behind(SQUARE, SLANTS),
    "misses": behind(SQUARE, NEAR_CORNER),
    "chains": SQUARE,
}


def tell(name, counts):
    print(f"{name}: whole {counts['whole']}, gone {counts['gone']}, cut {counts['cut']} with {counts['corners']} corners")


def main(rounds):
    planes = random_planes(1024)
    for name, start in STARTS.items():
        counts = {"whole": 0, "gone": 0, "cut": 0, "corners": 0}
        for _ in range(rounds):
            polygon = start
            for plane in planes:
                sides = [flipped(plane)] if name == "chains" else [plane, flipped(plane)]
                for side in sides:
                    kind, kept = clip(polygon, side)
                    counts[kind] += 1
                    counts["corners"] += len(kept) if kind == "cut" else 0
                if name == "chains" and kind != "whole":
                    polygon = kept if kind == "cut" else start
        tell(name, counts)
    numbers = Numbers()
    faces = [face for _ in range(64) for face in faces_of_box(numbers)]
    tree_planes = [tree_plane(numbers, place) for place in range(1023)]
    counts = {"whole": 0, "gone": 0, "cut": 0, "corners": 0}
    for _ in range(rounds):
        push_down(faces, tree_planes, counts)
    tell("tree", counts)


main(int(sys.argv[1]) if len(sys.argv) > 1 else 1)
