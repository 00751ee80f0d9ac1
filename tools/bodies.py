"""The leaves of a tree as convex bodies, found from the root on: each with its faces, which are not cut where its neighbours
end."""

from typing import NamedTuple, Optional

import corners
from polygons import turned, walls


class Face(NamedTuple):
    """A side of a body: its polygon, which goes round against the clock as seen from inside; its plane, turned inward; and the
    node of the plane, or None where the face lies on a wall of the cube."""
    polygon: list
    plane: tuple
    node: Optional[int]


def cube(bound, planes):
    """The faces of what of the cube lies in front of some planes, none where nothing does; those on the planes too have no node."""
    faces = [Face(corners.within(corners.on_plane(wall, bound), walls(bound)), wall, None) for wall in walls(bound)]
    for plane in planes:
        faces = faces and parted(faces, plane, None)[0]
    return faces or []


def parted(faces, plane, node):
    """The two bodies into which the plane of a node parts one, each None where it has no points."""
    values = corners.all_values([face.polygon for face in faces], plane)
    least, most = list(map(min, values)), list(map(max, values))
    if min(least) >= 0:
        return faces, None
    if max(most) <= 0:
        return None, faces
    front, back, cuts, round_plane = [], [], {}, {}
    for face, found, low, high in zip(faces, values, least, most):
        if low >= 0:
            front.append(face)
            round_plane.update(lying(face.polygon, found) if low == 0 else ())
        elif high <= 0:
            back.append(face)
        else:
            before, behind, enters, leaves = divided(face.polygon, found, cuts)
            front.append(Face(before, face.plane, face.node))
            back.append(Face(behind, face.plane, face.node))
            round_plane[enters] = leaves
    between = gone_round(round_plane)
    front.append(Face(between, turned(plane, True), node))
    back.append(Face(between[::-1], turned(plane, False), node))
    return front, back


def divided(polygon, found, cuts):
    """Both parts of a face that a plane cuts, and where its border comes to the front and where it leaves it. A new corner stands
    on an edge of two faces, and is kept in `cuts` for the other one."""
    front, back, enters, leaves = [], [], None, None
    last, there = polygon[-1], found[-1]
    for corner, here in zip(polygon, found):
        if here > 0:
            if there < 0:
                enters = cuts.get((corner, last)) or cuts.setdefault((last, corner), corners.cut(last, corner, there, here))
                front.append(enters)
                back.append(enters)
            front.append(corner)
        elif here < 0:
            if there > 0:
                leaves = cuts.get((corner, last)) or cuts.setdefault((last, corner), corners.cut(last, corner, there, here))
                front.append(leaves)
                back.append(leaves)
            elif there == 0:
                leaves = last
            back.append(corner)
        else:
            if there < 0:
                enters = corner
            front.append(corner)
            back.append(corner)
        last, there = corner, here
    return front, back, enters, leaves


def lying(polygon, found):
    """The edges of a face in front of a plane that lie on it, as the face on the plane has them: from an end to the one before."""
    return ((polygon[at], polygon[at - 1]) for at, here in enumerate(found) if here == 0 == found[at - 1])


def gone_round(following):
    """The corners of a polygon, each of which has the one that follows."""
    found = [next(iter(following))]
    while len(found) < len(following):
        found.append(following[found[-1]])
    return found


def bodies(tree, below, kinds, planes=()):
    """Each leaf that holds one of some kinds of contents and has points in front of some planes: what it has there, by its faces, in
    the order of the leaves. `below` has at each child what leaves below it hold."""
    within, wanted = cube(tree.bound, planes), [not kinds.isdisjoint(what) for what in below]
    waiting = [(tree.root(), within)] if within and wanted[tree.root()] else []
    while waiting:
        child, faces = waiting.pop()
        if child < 0:
            yield -1 - child, faces
            continue
        plane, front, back = tree.nodes[child]
        before, behind = parted(faces, tree.planes[plane], child)
        if behind and wanted[back]:
            waiting.append((back, behind))
        if before and wanted[front]:
            waiting.append((front, before))


def middle(faces):
    """A point inside a body, as it is drawn."""
    points = drawn(faces)
    return tuple(sum(numbers) / len(points) for numbers in zip(*points))


def drawn(faces):
    """The corners of a body as they are drawn, face by face."""
    return [(x / w, y / w, z / w) for face in faces for x, y, z, w in face.polygon]


def volume(faces):
    """How much room a body has, nearly."""
    within, room = middle(faces), 0.0
    for face in faces:
        first, *others = ([a - b for a, b in zip(corners.rounded(corner), within)] for corner in face.polygon)
        room += sum(abs(spanned(first, second, third)) for second, third in zip(others, others[1:]))
    return room / 6


def box(faces):
    """The room of the least box with sides along the axes that holds a body, nearly."""
    x, y, z = (max(numbers) - min(numbers) for numbers in zip(*drawn(faces)))
    return x * y * z


def spanned(first, second, third):
    """The room that three directions span, with its sign."""
    return (first[0] * (second[1] * third[2] - second[2] * third[1]) + first[1] * (second[2] * third[0] - second[0] * third[2])
            + first[2] * (second[0] * third[1] - second[1] * third[0]))


def largest(bodies):
    """Of some leaves with their faces the one with most room, of those that reach no wall of the cube where there is one."""
    inner = {leaf: faces for leaf, faces in bodies.items() if all(face.node is not None for face in faces)}
    found, most = None, -1.0
    for leaf, faces in (inner or bodies).items():
        # where the box has less room than the largest so far, by more than both are off, the body need not be looked at
        room = volume(faces) if 1.001 * box(faces) > most else most
        if room > most:
            found, most = leaf, room
    return found
