#!/usr/bin/env python3
"""Holds the views of `tools/qmlook picture` to the tree that they show, along rays without rounding.

    .ci/check_views.py TREE..

Of each tree, from some places: what the picture has along each of many rays is what a slow painter finds who looks at every
surface, and sorts by depth; what a row leaves out is drawn where nothing that it holds covers it, the nearest alone. And along many
more rays, which begin in leaves and end where contents change: each leaf that is passed is in the row of the first, where the tree
has rows, and the last has one surface there, before what comes next. That is drawn too, by the row of the first, where it is not
solid.

Where a file beside a tree, with the ending `.trail`, has the trail of a leak, its line is drawn in pictures exactly where the
painter finds nothing before it that is not seen through."""

from fractions import Fraction
from functools import lru_cache
from operator import mul
from pathlib import Path
import random
import sys

sys.path.insert(0, str(Path(__file__).resolve().parent.parent / "tools"))

from cells import Cells
import colours
import corners
from eyes import Eye
import picture
import pieces
from points import leak_line
from polygons import between
import sections
import surfaces
import treefile

# how many places a picture is made from, with and without a row; how many rays each of them has; and how many rays there
# are through a tree
PLACES, RAYS, THROUGH = 5, 200, 10000
# places are multiples of one by the first of these, and rays have numbers up to the second
PARTS, FINE = 9973, 1 << 20


def seen_of(tree):
    """What is seen of each leaf, by the faces of the tree file if it has any."""
    faces = sections.faces(tree)
    return surfaces.seen(tree) if faces is None else pieces.seen(tree, faces)


def dot(a, b):
    return a[0] * b[0] + a[1] * b[1] + a[2] * b[2]


def cross(a, b):
    return a[1] * b[2] - a[2] * b[1], a[2] * b[0] - a[0] * b[2], a[0] * b[1] - a[1] * b[0]


def sides(place, polygon):
    """The directions across each side of a polygon as seen from a place, in whole numbers. A ray from there goes through it
    where it has one sign along all."""
    x, y, z, w = place
    ways = [(a * w - d * x, b * w - d * y, c * w - d * z) for a, b, c, d in polygon]
    return [cross(first, second) for first, second in zip(ways, ways[1:] + ways[:1])]


def hits(found, way):
    """Whether a ray goes through what has these sides, not through its rim; None where it meets the rim."""
    signs = [dot(side, way) for side in found]
    if min(signs) > 0 or max(signs) < 0:
        return True
    return False if min(signs) < 0 < max(signs) else None


def depth(surface, place, way):
    """How far along a ray from a place the plane of a surface is, or None where it is not before it."""
    here, along = corners.value(surface.plane, place), dot(surface.plane, way)
    return Fraction(-here, along * place[3]) if here > 0 > along else None


class Painter:
    """Looks at each of some surfaces along a ray, and sorts by depth."""

    def __init__(self, tree, shown, place):
        self.place, self.painted = place, []
        for leaf, those in shown.items():
            for surface in those:
                kind = colours.kind(tree.leaves[leaf].contents, surface.beyond)
                if kind and corners.value(surface.plane, place) > 0:
                    self.painted.append((surface, (leaf, kind, surface.plane), sides(place, surface.polygon)))

    def along(self, way):
        """What is seen along a ray, from the nearest on, as far as the first that is not seen through; None where it meets a rim."""
        met = []
        for surface, what, found in self.painted:
            far = depth(surface, self.place, way)
            through = far is not None and hits(found, way)
            if through is None:
                return None
            if through:
                met.append((far, what))
        met.sort()
        opaque = next((at for at, (_, what) in enumerate(met) if colours.KINDS[what[1]][1] == 1), len(met))
        return [what for _, what in met[:opaque + 1]]


def along_picture(parts, way):
    """What a picture has along a ray, from the nearest on; None where it meets the rim of a piece."""
    found = []
    for part, pieces in parts:
        through = [hits(piece, way) for piece in pieces]
        if None in through:
            return None
        found += [(part.leaf, part.kind, part.surface.plane)] * sum(through)
    return found


def ray_of(eye, rng):
    """A ray inside the frame of a picture, in whole numbers."""
    right, up = rng.uniform(-0.999, 0.999) * eye.wide, rng.uniform(-0.999, 0.999) * eye.high * picture.HIGH / picture.WIDE
    way = [a + right * b + up * c for a, b, c in zip(eye.ahead, eye.right, eye.up)][:3]
    return tuple(round(number / max(map(abs, way)) * FINE) for number in way)


def faults_of_picture(tree, shown, left_out, place, aim, rng):
    """Where a picture is not what the painter finds."""
    eye = Eye(place, aim)
    drawn = picture.Picture(tree, eye, shown, left_out=left_out)
    parts, unseen = ([(part, [sides(eye.corner, polygon) for polygon in part.polygons]) for part in those]
                     for those in (drawn.parts, drawn.unseen))
    painter, behind, compared = Painter(tree, shown, eye.corner), Painter(tree, left_out, eye.corner), 0
    for _ in range(RAYS):
        way = ray_of(eye, rng)
        wanted, rest, found, grey = painter.along(way), behind.along(way), along_picture(parts, way), along_picture(unseen, way)
        if None in (wanted, rest, found, grey):
            continue
        compared += 1
        is_covered = any(colours.KINDS[kind][1] == 1 for _, kind, _ in wanted)
        if wanted != found or grey != ([] if is_covered else rest[:1]):
            yield f"from {place} along {way} the picture has {found} and {grey}, and the painter {wanted} before {rest}"
    if compared < RAYS * 9 // 10:
        yield f"from {place} only {compared} rays of {RAYS} meet no rim"


def hides(painter, way):
    """Whether something that is not seen through stands before the end of a way from the painter's place."""
    whole = corners.corner(way)[:3]
    depths = ((depth(surface, painter.place, way), kind, found) for surface, (_, kind, _), found in painter.painted)
    return any(far is not None and far < 1 and colours.KINDS[kind][1] == 1 and hits(found, whole) for far, kind, found in depths)


def is_on(point, ends):
    """Whether a point is on the piece of a line between two corners."""
    first, second = (corners.point(corner) for corner in (min(ends), max(ends)))
    axis = max(range(3), key=lambda at: abs(second[at] - first[at]))
    part = (point[axis] - first[axis]) / (second[axis] - first[axis])
    return 0 <= part <= 1 and all(a + part * (b - a) == c for a, b, c in zip(first, second, point))


def faults_of_line(tree, seen, trail, rng):
    """Where a leak line is not drawn as it should be."""
    line, shown, counts = leak_line(Cells(tree), trail), {leaf: what.surfaces for leaf, what in seen.items()}, [0, 0]
    for _ in range(4 * PLACES):
        place = tuple(number + rng.randrange(-120, 120) for number in rng.choice(line[:-1]))
        eye = Eye(place, line[0])
        drawn, painter = picture.Picture(tree, eye, shown, line, trail), Painter(tree, shown, eye.corner)
        within = [eye.near, *eye.frame(Fraction(picture.HIGH, picture.WIDE))]
        for first, second in 4 * list(zip(line, line[1:])):
            point = between(first, second, Fraction(rng.randrange(1, PARTS), PARTS))
            is_in = all(corners.value(plane, corners.corner(point)) > 0 for plane in within)
            wanted = is_in and not hides(painter, tuple(a - b for a, b in zip(point, place)))
            counts[wanted] += is_in
            if wanted != any(is_on(point, ends) for ends in drawn.ends):
                yield f"from {place} the leak line at {point} {'is not' if wanted else 'is'} drawn"
    if min(counts) < PLACES:
        yield f"of the points of the leak line {counts[0]} are hidden and {counts[1]} are seen, which tells nothing"


def point_inside(faces, rng):
    """A point inside a body, or near its rim: a mean of its corners by chance, rounded."""
    points = [corners.rounded(corner) for face in faces for corner in face.polygon]
    weights = [rng.randrange(1, PARTS) for _ in points]
    return tuple(Fraction(round(sum(map(mul, weights, numbers)) / sum(weights) * PARTS), PARTS) for numbers in zip(*points))


def passed(tree, place, way):
    """The leaves along a ray from a place, from the first on, each with where along it it ends, and the node there; None where the
    ray meets an edge."""
    w, end = place[3], Fraction(1 << 20)
    waiting = [(tree.root(), Fraction(0), end, None)]
    while waiting:
        child, low, high, last = waiting.pop()
        if child < 0:
            yield -1 - child, high, last
            continue
        plane, front, back = tree.nodes[child]
        here, along = corners.value(tree.planes[plane], place), w * dot(tree.planes[plane], way)
        begin = here * low.denominator + along * low.numerator
        finish = here * high.denominator + along * high.numerator
        if begin >= 0 and finish >= 0 or begin <= 0 and finish <= 0:
            if begin == 0 == finish:
                yield None
                return
            waiting.append((front if begin + finish > 0 else back, low, high, last))
        else:
            cut = Fraction(-here, along)
            near, far = (front, back) if begin > 0 else (back, front)
            waiting += [(far, cut, high, last), (near, low, cut, child)]


def faults_of_ray(tree, seen, held, leaf, place, way):
    """What is wrong along a ray that begins in a leaf, if rounding has not moved its place, and ends where contents change; and at
    last None where all of it was held to the tree."""
    row = None if tree.rows is None else set(tree.row(tree.leaves[leaf].number))
    own, before, at, node = tree.leaves[leaf].contents, leaf, None, None
    for found in passed(tree, place, way):
        if found is None:
            return
        other, high, ends_at = found
        if at is None and other != leaf:
            return
        if tree.leaves[other].contents != own:
            yield from faults_of_end(tree, seen[before], tree.leaves[other].contents, node, place, way)
            if row is not None and tree.leaves[other].number is not None and other not in held(leaf):
                yield f"by the row of leaf {leaf} leaf {other} is not drawn, which is seen along {way} from {place}"
            break
        if row is not None and tree.leaves[other].number not in row:
            middle = tuple(number + (high + (at or 0)) / 2 * part for number, part in zip(corners.point(place), way))
            whose = "the rows'" if tree.leaf_at(middle) == other else "the tool's"
            yield f"the row of leaf {leaf} lacks leaf {other}, which is seen along {way} from {place}: a fault of {whose}"
        before, at, node = other, high, ends_at
    yield None


def faults_of_end(tree, seen, beyond, node, place, way):
    """Whether one surface of the last leaf is where its ray ends, before what comes next."""
    plane = tree.planes[tree.nodes[node].plane]
    found = []
    for surface in seen.surfaces:
        if tuple(plane) in (surface.plane, tuple(-number for number in surface.plane)):
            through = hits(sides(place, surface.polygon), way)
            if through is None:
                return
            found += [surface.beyond] * through
    if found != [beyond]:
        yield f"along {way} from {place} {beyond} comes, and the leaf before it has surfaces before {found}"


def faults(tree, rng):
    seen = seen_of(tree)
    numbered, shown = sorted(seen), {leaf: what.surfaces for leaf, what in seen.items()}
    for at in range(PLACES):
        leaf = rng.choice(numbered)
        place = point_inside(seen[leaf].faces, rng)
        aim = point_inside(seen[rng.choice(numbered)].faces, rng)
        if at == 0:
            place = tuple(number + 700 for number in place)
        if at % 2 and tree.rows is not None:
            held = surfaces.held(tree, seen, leaf)
            within, left_out = ({other: those for other, those in shown.items() if (other in held) == is_held} for is_held in (True, False))
            yield from faults_of_picture(tree, within, left_out, place, aim, rng)
        else:
            yield from faults_of_picture(tree, shown, {}, place, aim, rng)
    yield from faults_through(tree, seen, rng)


def faults_through(tree, seen, rng):
    """What is wrong along rays from leaf to leaf."""
    numbered, whole = sorted(seen), 0
    held = lru_cache(None)(lambda leaf: surfaces.held(tree, seen, leaf))
    for _ in range(THROUGH):
        leaf = rng.choice(numbered)
        place = corners.corner(point_inside(seen[leaf].faces, rng))
        way = tuple(rng.randrange(1, FINE) * rng.choice((-1, 1)) for _ in range(3))
        for fault in faults_of_ray(tree, seen, held, leaf, place, way):
            whole += fault is None
            if fault:
                yield fault
    if whole < THROUGH * 9 // 10:
        yield f"only {whole} rays of {THROUGH} meet no rim"


def main():
    rng, found = random.Random(9), []
    for name in sys.argv[1:]:
        tree, beside = treefile.load(name), Path(name).with_suffix(".trail")
        some = faults(tree, rng)
        if beside.exists():
            some = faults_of_line(tree, surfaces.seen(tree), [int(word) for word in beside.read_text().split()], rng)
        found += [f"{name}: {fault}" for fault in some]
    sys.exit("\n".join(found[:20]) or 0)


if __name__ == "__main__":
    main()
