#!/usr/bin/env python3
"""Holds the pictures of `tools/qmlook plan` to the tree that they show.

    .ci/check_plans.py TREE..

Of each tree, at some heights: the pieces of a slice fill the cube once, and each point of the slice lies in the piece of the
leaf to which the tree leads it. The picture is XML, has each piece that it shows with the fill of its leaf, and no two of
its texts overlap. Of a row just the leaves that it holds are drawn, and of a clip hull, which is the tree
itself with every other leaf solid, just what is solid. Of a segment each part has the fill of the leaf to which its points lead, and ends where it says. Of entities just those are marked from which the way straight up
or down to the slice meets nothing solid, as the leaves between the planes along it are."""

from fractions import Fraction
from itertools import combinations
from math import hypot
from pathlib import Path
import random
import re
import sys
from xml.etree import ElementTree

sys.path.insert(0, str(Path(__file__).resolve().parent.parent / "tools"))

from origins import Mark
import patterns
import plan
import slices
import treefile

SVG = "{http://www.w3.org/2000/svg}"
# the fill of each kind of leaf
FILLS = {kind: fill for kind, (fill, *_) in patterns.KINDS.items()}
# how many entities are marked by chance in a slice
MARKS = 40


def area(corners):
    """Twice the area of a polygon across x and y."""
    return abs(sum(a[0] * b[1] - b[0] * a[1] for a, b in zip(corners, corners[1:] + corners[:1])))


def lies_within(corners, x, y):
    """Whether a point lies strictly inside a convex polygon."""
    turns = [(b[0] - a[0]) * (y - a[1]) - (b[1] - a[1]) * (x - a[0]) for a, b in zip(corners, corners[1:] + corners[:1])]
    return min(turns) > 0 or max(turns) < 0


def faults_of_slice(tree, height, found, rng):
    """What is wrong with the pieces of a slice."""
    if sum(area(polygon) for _, polygon in found) != 2 * (2 * tree.bound) ** 2:
        yield "the pieces do not fill the cube once"
    (west, east), (south, north) = slices.extent(tree, found)
    for _ in range(80):
        x, y = (low + (high - low) * Fraction(rng.randrange(1, 9973), 9973) for low, high in ((west, east), (south, north)))
        within = [leaf for leaf, polygon in found if lies_within(polygon, x, y)]
        if within and within != [tree.leaf_at((x, y, height))]:
            yield f"the point {x} {y} lies in the pieces of {within}, and the tree leads it to {tree.leaf_at((x, y, height))}"


def boxes(root):
    """The box of each text, from its place and size: west, east, top, bottom."""
    for parent in root.iter():
        shift = re.findall(r"-?[\d.]+", parent.get("transform", "translate(0,0)"))
        for text in parent.findall(f"{SVG}text"):
            x, y, size = (float(text.get(name, 0)) for name in ("x", "y", "font-size"))
            wide = 0.56 * size * len(text.text)
            left = x - wide / 2 if text.get("class") in ("label", "place") else x
            left, y = left + float(shift[0]), y + float(shift[1])
            yield left, left + wide, y - 0.75 * size, y + 0.05 * size


def faults_of_picture(tree, text):
    """What is wrong with a picture."""
    root = ElementTree.fromstring(text)
    for one, other in combinations(list(boxes(root)), 2):
        if one[0] < other[1] and other[0] < one[1] and one[2] < other[3] and other[2] < one[3]:
            yield f"two texts overlap, at {one[0]:.0f} {one[2]:.0f} and at {other[0]:.0f} {other[2]:.0f}"
    fills = {pattern.get("id") for pattern in root.iter(f"{SVG}pattern")}
    pieces = [path for path in root.iter(f"{SVG}path") if path.get("class") == "piece"]
    if not pieces:
        yield "it shows no piece"
    for path in pieces:
        leaf = tree.leaves[int(re.match(r"leaf (\d+)", path.find(f"{SVG}title").text).group(1))]
        kind = "filled" if leaf.filled else leaf.contents
        if path.get("fill") != f"url(#{kind})" or kind not in fills:
            yield f"{path.find(f'{SVG}title').text}: its fill is {path.get('fill')}"


def distance_within(corners, x, y):
    """How far inside a convex polygon of the picture a point lies, or below 0 how far outside."""
    turns = [((b[0] - a[0]) * (y - a[1]) - (b[1] - a[1]) * (x - a[0])) / max(hypot(b[0] - a[0], b[1] - a[1]), 0.01)
             for a, b in zip(corners, corners[1:] + corners[:1])]
    return max(min(turns), -max(turns))


def faults_of_hull(picture, rng):
    """What is wrong with what is drawn of a clip hull: points by chance, off the borders, are covered just where they are solid."""
    leaves = [leaf._replace(contents="solid" if number % 2 else "empty") for number, leaf in enumerate(picture.tree.leaves)]
    hull = picture.tree._replace(leaves=leaves)
    picture.block(1, hull)
    paths = re.findall(r'd="M(\S+)Z" fill="url\(#blocked\)"', "".join(picture.overlay))
    drawn = [[tuple(map(float, corner.split(","))) for corner in path.split("L")] for path in paths]
    view = picture.view
    for _ in range(300):
        x, y = (low + (high - low) * Fraction(rng.randrange(1, 9973), 9973)
                for low, high in ((view.west, view.east), (view.south, view.north)))
        within = max((distance_within(corners, *view.at((x, y))) for corners in drawn), default=-1)
        is_solid = hull.is_solid_at((x, y, picture.height))
        if abs(within) > 0.2 and is_solid != (within > 0):
            yield f"the point {x} {y} is {'' if is_solid else 'not '}solid in the hull, and is {'not ' if is_solid else ''}covered"
    legend = plan.drawn(picture, "a map")
    if legend.count(">solid in hull 1</text>") != 1 or legend.count('<pattern id="blocked"') != 1:
        yield "the hull stands not once in the legend"


def faults_of_trace(tree, height, found, rng):
    """What is wrong with what is drawn of a segment between two points by chance, the first at the height of the slice."""
    picture = plan.Picture(tree, height, found, plan.View(slices.extent(tree, found)))
    view = picture.view
    first, second = (tuple(low + (high - low) * Fraction(rng.randrange(1, 97), 97) for low, high in (
        (view.west, view.east), (view.south, view.north))) + (height + rng.choice((0, 0, tall)),) for tall in (0, rng.randrange(-90, 90)))
    picture.trace(tree, first, second)
    text = plan.drawn(picture, "a <map>")
    begin = Fraction(0)
    for fill, *ends, leaf, kind, at, of in re.findall(
            r'<line class="span" stroke="(\S+)" x1="(\S+)" y1="(\S+)" x2="(\S+)" y2="(\S+)"><title>leaf (\d+), (\w+), to (\d+)/(\d+)<', text):
        end, own = Fraction(int(at), int(of)), tree.leaves[int(leaf)]
        points = [tuple(a + part * (b - a) for a, b in zip(first, second)) for part in (begin, (begin + end) / 2, end)]
        wanted = [*view.at(points[0]), *view.at(points[2])]
        if not begin < end or any(abs(float(a) - b) > 0.06 for a, b in zip(ends, wanted)):
            yield f"a part of {first} to {second} that ends at {end} is drawn at {ends}, and not at {wanted}"
        if tree.leaf_at(points[1]) != int(leaf) or kind != ("filled" if own.filled else own.contents) or fill != FILLS[kind]:
            yield f"in the middle of the part of {first} to {second} up to {end} is not leaf {leaf}, {kind} and {fill}"
        if text.count(f">{at}/{of}<") > 2 or end < 1 and f"<title>{at}/{of}</title>" not in text:
            yield f"the change at {end} is not told once"
        begin = end
    if begin != 1:
        yield f"the segment is drawn as far as {begin}"
    yield from faults_of_picture(tree, text)


def faults_of_row(tree, picture, number):
    """What is wrong with what is drawn of a row: it has just the outlines of the leaves that it holds."""
    picture.hold(number)
    marked = set(re.findall(r'd="(\S+)" fill="url\(#held\)"', "".join(picture.overlay)))
    held = {plan.outline(corners) for leaf, corners in picture.shown if tree.leaves[leaf].number in tree.row(number)}
    if marked != held or not held:
        yield f"row {number} has {len(marked)} pieces drawn, and holds {len(held)} of those that are shown"


def is_open(tree, place, height):
    """Whether nothing solid is straight between a place and a height: the leaves are asked for between neighbouring planes."""
    x, y, z = place
    met = {Fraction(plane.d - plane.nx * x - plane.ny * y, plane.nz) for plane in tree.planes if plane.nz}
    low, high = min(z, height), max(z, height)
    ends = [low, *sorted(at for at in met if low < at < high), high]
    asked = [height, *((one + other) / 2 for one, other in zip(ends, ends[1:]))]
    return all(tree.leaves[tree.leaf_at((x, y, at))].number is not None for at in asked)


def faults_of_marks(tree, height, found, rng):
    """What is wrong with the entities that are marked: some by chance, above and below what is open in the slice and elsewhere."""
    drawn, marks = plan.Picture(tree, height, found, plan.View(slices.extent(tree, found))), []
    for at in range(MARKS):
        _, corners = rng.choice([piece for piece in found if at % 4 == 0 or tree.leaves[piece[0]].number is not None] or found)
        weights = [rng.randrange(1, 100) for _ in corners]
        x, y = (sum(weight * corner[axis] for weight, corner in zip(weights, corners)) / sum(weights) for axis in (0, 1))
        marks.append(Mark(rng.choice(("light", "info_player_start", "<>")), str(at), (x, y, height + rng.randrange(-150, 150)), None))
    drawn.mark(marks)
    told = {int(at) for at in re.findall(r"<title>\S+ (\d+) at \S+</title>", "".join(drawn.overlay))}
    wanted = {at for at, mark in enumerate(marks) if drawn.view.holds(mark.place) and is_open(tree, mark.place, height)}
    if told != wanted:
        yield f"the entities {sorted(told)} are marked, and {sorted(wanted)} should be, of {marks}"
    ElementTree.fromstring(plan.drawn(drawn, "a map"))


def faults(tree, rng):
    heights = {slices.usual_height(tree), Fraction(rng.randrange(-100, 200)), *rng.sample(slices.heights(tree), 2)}
    for height in sorted(heights):
        found = slices.pieces(tree, height)
        picture = plan.Picture(tree, height, found, plan.View(slices.extent(tree, found)))
        for fault in (*faults_of_slice(tree, height, found, rng), *faults_of_picture(tree, plan.drawn(picture, "a <map>")),
                      *faults_of_marks(tree, height, found, rng), *faults_of_hull(picture, rng),
                      *faults_of_trace(tree, height, found, rng)):
            yield f"at height {height}: {fault}"
    everyone = [leaf.number for leaf in tree.leaves if leaf.number is not None]
    rows = [sum(1 << n for n in {own, everyone[-1 - own]}).to_bytes((len(everyone) + 7) // 8, "little") for own in everyone]
    tree = tree._replace(rows=rows)
    found = slices.pieces(tree, slices.usual_height(tree))
    number = next(tree.leaves[leaf].number for leaf, _ in found if tree.leaves[leaf].number is not None)
    yield from faults_of_row(tree, plan.Picture(tree, 0, found, plan.View(slices.extent(tree, found))), number)


def main():
    rng = random.Random(5)
    found = [f"{name}: {fault}" for name in sys.argv[1:] for fault in faults(treefile.load(name), rng)]
    sys.exit("\n".join(found) or 0)


main()
