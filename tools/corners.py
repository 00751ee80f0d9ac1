"""Convex polygons whose corners are four whole numbers, for what is cut often: x, y, z and w stand for the point
(x/w, y/w, z/w). So nothing is rounded, and no fraction is made on the way.

w is greater than 0, and the four have no common factor: each point has one form. Planes are as in polygons.py. Seen from the
front of its plane a polygon goes round against the clock."""

from fractions import Fraction
from math import gcd

from polygons import parted as parted_with, square


def corner(point):
    """The corner of a point, whose coordinates are whole numbers or fractions."""
    x, y, z = (Fraction(number) for number in point)
    w = x.denominator * y.denominator * z.denominator
    return reduced(int(x * w), int(y * w), int(z * w), w)


def reduced(x, y, z, w):
    """Four numbers without their common factor."""
    common = gcd(x, y, z, w)
    return (x // common, y // common, z // common, w // common) if common > 1 else (x, y, z, w)


def point(corner):
    """The point of a corner, in fractions."""
    x, y, z, w = corner
    return Fraction(x, w), Fraction(y, w), Fraction(z, w)


def value(plane, corner):
    """How far in front of a plane a corner is, as a multiple of the normal's length and of w."""
    return plane[0] * corner[0] + plane[1] * corner[1] + plane[2] * corner[2] - plane[3] * corner[3]


def cut(first, second, here, there):
    """The corner on a plane, between two on either side of it whose values are given."""
    if here < 0:
        first, second, here, there = second, first, there, here
    (a, b, c, d), (e, f, g, h) = first, second
    return reduced(here * e - there * a, here * f - there * b, here * g - there * c, here * h - there * d)


def values(polygon, plane):
    """The value of each corner of a polygon."""
    nx, ny, nz, d = plane
    if ny == nz == 0:
        return [nx * x - d * w for x, _, _, w in polygon]
    if nx == nz == 0:
        return [ny * y - d * w for _, y, _, w in polygon]
    if nx == ny == 0:
        return [nz * z - d * w for _, _, z, w in polygon]
    return [nx * x + ny * y + nz * z - d * w for x, y, z, w in polygon]


def all_values(polygons, plane):
    """The values of the corners of some polygons, polygon by polygon."""
    nx, ny, nz, d = plane
    if ny == nz == 0:
        return [[nx * x - d * w for x, _, _, w in polygon] for polygon in polygons]
    if nx == nz == 0:
        return [[ny * y - d * w for _, y, _, w in polygon] for polygon in polygons]
    if nx == ny == 0:
        return [[nz * z - d * w for _, _, z, w in polygon] for polygon in polygons]
    return [[nx * x + ny * y + nz * z - d * w for x, y, z, w in polygon] for polygon in polygons]


def split(polygon, plane):
    """What a plane leaves in front and behind, each None where nothing is there. What lies in the plane goes to the front."""
    return parted(polygon, values(polygon, plane))


def parted(polygon, found):
    """The same, of a plane at which the corners have these values."""
    return parted_with(polygon, found, cut)


def within(polygon, planes):
    """What of a polygon lies in front of all of some planes, or None."""
    for plane in planes:
        if polygon is None:
            return None
        polygon, _ = split(polygon, plane)
    return polygon


def on_plane(plane, bound):
    """A square on a plane that holds all that the plane has of the cube, and goes round against the clock."""
    across = max(range(3), key=lambda axis: abs(plane[axis]))
    one, other = (across + 1) % 3, (across + 2) % 3
    corners = []
    for at_one, at_other in square(bound):
        place = [0, 0, 0, abs(plane[across])]
        place[one], place[other] = at_one * place[3], at_other * place[3]
        place[across] = plane[3] - plane[one] * at_one - plane[other] * at_other
        place[across] *= 1 if plane[across] > 0 else -1
        corners.append(reduced(*place))
    return corners if plane[across] > 0 else corners[::-1]


def rounded(corner):
    """The coordinates of a corner as they are drawn."""
    x, y, z, w = corner
    return x / w, y / w, z / w
