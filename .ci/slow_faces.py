"""Plain slow faces of a map: where rock touches leaves that are not solid, and whose the surface is there, in exact fractions and from
the definitions. It shares nothing with the tools but the reader of tree files.

A plane is four whole numbers; a polygon is a list of points on a plane, each three fractions."""

from fractions import Fraction
from itertools import combinations
from typing import NamedTuple

from slow_models import Body, inward, walls


class Contact(NamedTuple):
    """Where rock touches a leaf that is not solid: this leaf, the number of the plane, the plane turned to the leaf, and the polygon."""
    leaf: int
    number: int
    into: tuple
    polygon: list


class Brush(NamedTuple):
    """The planes of a brush of the world that is not clip, turned inward, and whether it can own a surface: it is solid and not flat."""
    planes: list
    may_own: bool


def brushes_of(made, bound):
    """Of brushes, each its faces as three points and what it holds, those that are not clip."""
    found = [([inward(points) for points in faces], contents) for faces, contents in made if contents != "clip"]
    return [Brush(planes, contents == "solid" and not Body(planes, contents, bound).is_flat(bound)) for planes, contents in found]


def value(plane, point):
    """How far in front of a plane a point is."""
    return plane[0] * point[0] + plane[1] * point[1] + plane[2] * point[2] - plane[3]


def turned(plane, to_front=False):
    """The plane, or the same with its sides exchanged."""
    return tuple(plane) if to_front else tuple(-number for number in plane)


def axis_of(plane):
    """The axis along which a plane's normal is longest."""
    return max(range(3), key=lambda axis: abs(plane[axis]))


def area(polygon, plane):
    """Twice the area of a polygon on a plane, as seen along the axis of its normal."""
    across = axis_of(plane)
    flat = [(point[(across + 1) % 3], point[(across + 2) % 3]) for point in polygon]
    return abs(sum(a[0] * b[1] - b[0] * a[1] for a, b in zip(flat, flat[1:] + flat[:1])))


def part_in_front(polygon, plane):
    """What of a polygon lies in front of a plane, or on it; None if that has no area."""
    values, found = [value(plane, point) for point in polygon], []
    if max(values) <= 0:
        return None
    for at, here in enumerate(values):
        there = values[at - 1]
        if min(here, there) < 0 < max(here, there):
            part = Fraction(there) / (there - here)
            found.append(tuple(a + part * (b - a) for a, b in zip(polygon[at - 1], polygon[at])))
        if here >= 0:
            found.append(polygon[at])
    return found


def within(polygon, planes):
    """What of a polygon lies in front of all of some planes, or None."""
    for plane in planes:
        polygon = polygon and part_in_front(polygon, plane)
    return polygon


def whole(plane, bound):
    """What a plane has of the cube, or None."""
    across = axis_of(plane)
    one, other = (across + 1) % 3, (across + 2) % 3
    points = []
    for at_one, at_other in ((-bound, -bound), (bound, -bound), (bound, bound), (-bound, bound)):
        point = [Fraction(0)] * 3
        point[one], point[other] = Fraction(at_one), Fraction(at_other)
        point[across] = Fraction(plane[3] - plane[one] * at_one - plane[other] * at_other, plane[across])
        points.append(tuple(point))
    return within(points, [wall for wall in walls(bound) if wall[across]])


def below(tree, child, polygon):
    """The parts of a polygon by the leaves below a child."""
    waiting = [(child, polygon)]
    while waiting:
        child, polygon = waiting.pop()
        if child < 0:
            yield -1 - child, polygon
            continue
        number, front, back = tree.nodes[child]
        for other, to_front in (front, True), (back, False):
            part = part_in_front(polygon, turned(tree.planes[number], to_front))
            if part:
                waiting.append((other, part))


def ways(tree):
    """Of each node the planes above it, turned to it."""
    waiting = [(tree.root(), [])]
    while waiting:
        child, way = waiting.pop()
        if child >= 0:
            yield child, way
            number, front, back = tree.nodes[child]
            waiting += [(other, way + [turned(tree.planes[number], to_front)]) for other, to_front in ((front, True), (back, False))]


def contacts(tree):
    """Where rock touches leaves that are not solid."""
    for node, way in ways(tree):
        number, front, back = tree.nodes[node]
        polygon = within(whole(tree.planes[number], tree.bound), way)
        for first, part in below(tree, front, polygon) if polygon else ():
            for second, shared in below(tree, back, part):
                for rock, leaf, to_front in (first, second, False), (second, first, True):
                    is_rock = tree.leaves[rock].contents == "solid" and not tree.leaves[rock].filled
                    if is_rock and tree.leaves[leaf].number is not None:
                        yield Contact(leaf, number, turned(tree.planes[number], to_front), shared)


def owning_face(brush, into):
    """The number of the face by which a brush may own points of a plane that is turned to the leaf: its first one on the plane that has
    the other side inside; or None."""
    return next((face for face, plane in enumerate(brush.planes) if plane == turned(into)), None) if brush.may_own else None


def overlap(one, other, into):
    """Twice the area that two convex polygons on a plane have in common, as seen along the axis of its normal."""
    middle = [sum(parts) / len(other) for parts in zip(*other)]
    for a, b in zip(other, other[1:] + other[:1]):
        way = [y - x for x, y in zip(a, b)]
        side = [into[1] * way[2] - into[2] * way[1], into[2] * way[0] - into[0] * way[2], into[0] * way[1] - into[1] * way[0]]
        plane = (*side, sum(n * x for n, x in zip(side, a)))
        one = part_in_front(one, plane if value(plane, middle) > 0 else turned(plane))
        if not one:
            return 0
    return area(one, into)


def corner_faults(tree, piece, points, into):
    """What is wrong with the corners of a piece: with the planes of each, with the way they go round, and with which is the first."""
    keys = [[int(abs(part) * 1000000 + Fraction(1, 2)) * (1 if part > 0 else -1) for part in point] for point in points]
    if keys[0] != min(keys):
        yield "its corners begin with another than the first"
    for at, ((own, before, after), here) in enumerate(zip(piece.corners, points)):
        last, following = points[at - 1], points[(at + 1) % len(points)]
        (a, b, c), (d, e, f) = ([x - y for x, y in zip(end, here)] for end in (last, following))
        if value((b * f - c * e, c * d - a * f, a * e - b * d, 0), into[:3]) <= 0:
            yield f"its corner {at} turns the other way"
        planes = [tree.named_plane(number) for number in (own, before, after)]
        if own != piece.corners[0][0] or value(planes[1], last) or value(planes[2], following) or value(planes[0], following):
            yield f"the planes of its corner {at} are not those of its edges"


def owner_faults(brushes, piece, points, into):
    """What is wrong with the owner of a piece."""
    if piece.brush >= len(brushes) or owning_face(brushes[piece.brush], into) != piece.face:
        yield "its owner has no such face there"
        return
    if any(value(plane, point) < 0 for plane in brushes[piece.brush].planes for point in points):
        yield "its owner does not hold it"
    for number, other in enumerate(brushes[:piece.brush]):
        if owning_face(other, into) is not None and within(points, [plane for plane in other.planes if plane != turned(into)]):
            yield f"brush {number} comes before its owner"


def faults(tree, brushes, found, pieces):
    """What is wrong with the pieces of a tree's surface, whose contacts are given: each belongs to one contact and to its owner, no two of
    them overlap, and those of a contact have just its area."""
    shares = [[] for _ in found]
    places = {}
    for at, contact in enumerate(found):
        places.setdefault((contact.leaf, contact.number), []).append(at)
    for number, piece in enumerate(pieces):
        points = [tree.corner(corner) for corner in piece.corners]
        near = places.get((piece.leaf, piece.corners[0][0]), ())
        homes = [at for at in near if overlap(points, found[at].polygon, found[at].into) == area(points, found[at].into)]
        if len(homes) != 1:
            yield f"piece {number} lies in {len(homes)} contacts"
            continue
        into = found[homes[0]].into
        shares[homes[0]].append(points)
        for fault in (*corner_faults(tree, piece, points, into), *owner_faults(brushes, piece, points, into)):
            yield f"piece {number}: {fault}"
    for contact, share in zip(found, shares):
        if sum(area(points, contact.into) for points in share) != area(contact.polygon, contact.into):
            yield f"the pieces at leaf {contact.leaf} on plane {contact.number} have not the area of the contact"
        if any(overlap(one, other, contact.into) for one, other in combinations(share, 2)):
            yield f"pieces at leaf {contact.leaf} on plane {contact.number} overlap"
