"""The brushes of an entity as convex bodies in the cube, without rounding."""

from functools import lru_cache
from math import lcm
from typing import NamedTuple

from bodies import Face, cube, parted
from corners import reduced
from mapfaces import CLIP
from polygons import turned

# which contents win where brushes overlap, the strongest first
STRENGTH = ("solid", "sky", "lava", "slime", "water", "empty")


class Body(NamedTuple):
    """A brush that has room: its number in the entity, its faces as the map has them, and what it holds; the polygon of each face
    that has one, by its number among the faces, which goes round with the clock as seen from outside; the least box of whole numbers
    around it; and a point inside it, as four numbers."""
    number: int
    faces: list
    contents: str
    polygons: dict
    low: tuple
    high: tuple
    middle: tuple

    def planes(self):
        """The planes of all faces, turned outward."""
        return [face.plane for face in self.faces]


def full(brushes, bound):
    """The bodies of those brushes that have room in the cube."""
    return [body for body in (body_of(number, brush, bound) for number, brush in enumerate(brushes)) if body]


def body_of(number, brush, bound):
    """The body of a brush, or None where it has no room."""
    sides = room([face.plane for face in brush.faces], bound)
    if not sides:
        return None
    polygons = {side.node: side.polygon for side in sides if side.node is not None}
    points = {corner for side in sides for corner in side.polygon}
    return Body(number, brush.faces, brush.contents(), polygons, *box(points), mean(points))


def room(planes, bound):
    """The sides of what of the cube lies behind all of some planes, each with the number of its plane for a node; or None."""
    sides = block(planes, bound)
    for number, plane in enumerate(planes):
        if sides and plane[:3].count(0) < 2:
            sides = parted(sides, turned(plane, False), number)[0]
    return sides


def block(planes, bound):
    """The sides of what of the cube lies behind those planes that are along the axes; or None."""
    ends = {(axis, way): (way * bound, 1, None) for axis in range(3) for way in (-1, 1)}
    for number, plane in enumerate(planes):
        if plane[:3].count(0) == 2:
            axis = next(axis for axis in range(3) if plane[axis])
            way, weight = (1, plane[axis]) if plane[axis] > 0 else (-1, -plane[axis])
            place, other, _ = ends[axis, way]
            if plane[3] * other < way * place * weight:
                ends[axis, way] = way * plane[3], weight, number
    if any(ends[axis, -1][0] * ends[axis, 1][1] >= ends[axis, 1][0] * ends[axis, -1][1] for axis in range(3)):
        return None
    return [moved_to(face, ends) for face in whole(bound)]


@lru_cache(maxsize=None)
def whole(bound):
    """The sides of the cube."""
    return cube(bound, ())


def moved_to(face, ends):
    """A side of the cube, moved inward: `ends` has for each axis and way the place, as a whole number and a weight, and a number."""
    axis = next(axis for axis in range(3) if face.plane[axis])
    place, weight, number = ends[axis, -face.plane[axis]]
    plane = tuple(weight * part for part in face.plane[:3]) + (face.plane[axis] * place,)
    return Face([corner_at(ends, *(1 if part > 0 else -1 for part in corner[:3])) for corner in face.polygon], plane, number)


def corner_at(ends, *ways):
    """The corner of a block towards three ways."""
    (x, a, _), (y, b, _), (z, c, _) = (ends[axis, way] for axis, way in enumerate(ways))
    return (x, y, z, 1) if a == b == c == 1 else reduced(x * b * c, y * a * c, z * a * b, a * b * c)


def box(points):
    """The low and the high end of the least box of whole numbers that holds some corners."""
    low = tuple(min(point[axis] // point[3] for point in points) for axis in range(3))
    return low, tuple(max(-(-point[axis] // point[3]) for point in points) for axis in range(3))


def mean(points):
    """The mean of some corners."""
    times = lcm(*(w for *_, w in points))
    return (*(sum(point[axis] * (times // point[3]) for point in points) for axis in range(3)), times * len(points))


def drawn(bodies):
    """The bodies that are in the tree: all but those that hold nothing and are in the way alone."""
    return [body for body in bodies if body.contents != CLIP]


def span(plane, low, high):
    """The least and the greatest value that a plane has in a box."""
    nx, ny, nz, d = plane
    if ny == nz == 0:
        return (nx * low[0] - d, nx * high[0] - d) if nx > 0 else (nx * high[0] - d, nx * low[0] - d)
    if nx == nz == 0:
        return (ny * low[1] - d, ny * high[1] - d) if ny > 0 else (ny * high[1] - d, ny * low[1] - d)
    if nx == ny == 0:
        return (nz * low[2] - d, nz * high[2] - d) if nz > 0 else (nz * high[2] - d, nz * low[2] - d)
    least = most = -d
    for part, below, above in zip((nx, ny, nz), low, high):
        least += part * (below if part > 0 else above)
        most += part * (above if part > 0 else below)
    return least, most
