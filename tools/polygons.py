"""Convex polygons in space, cut by planes without rounding: corners are exact fractions.

A polygon is a list of corners that goes round it; a plane is four whole numbers, as in a tree file. A plane is turned
towards a side by the signs of all four, so that what is meant lies to its front. A bound says which cube is meant: that in which
each coordinate lies between -bound and bound."""

from fractions import Fraction

from treefile import value


def walls(bound):
    """The walls of the cube, turned inward."""
    return [(1, 0, 0, -bound), (-1, 0, 0, -bound), (0, 1, 0, -bound), (0, -1, 0, -bound), (0, 0, 1, -bound), (0, 0, -1, -bound)]


def square(bound):
    """The two coordinates of each corner of a side of the cube, in their order round it."""
    return (-bound, -bound), (bound, -bound), (bound, bound), (-bound, bound)


def turned(plane, to_front):
    """The plane with its front where `to_front` says: where it was, or on the other side."""
    return tuple(plane) if to_front else tuple(-number for number in plane)


def between(first, second, part):
    """The point at a part, from 0 to 1, of the segment from one point to another."""
    return tuple(a + part * (b - a) for a, b in zip(first, second))


def parted(polygon, values, cut):
    """What a plane leaves of a polygon in front and behind, each None where nothing is there. What lies in the plane goes to the
    front. The plane is told by a value for each corner: how far in front of it the corner is, in a measure of its own. `cut`
    makes the corner on the plane between two on either side of it, from these and their values, so corners may have any form."""
    if min(values) >= 0:
        return polygon, None
    if max(values) <= 0:
        return None, polygon
    front, back = [], []
    for at, here in enumerate(values):
        there = values[at - 1]
        if here < 0 < there or there < 0 < here:
            corner = cut(polygon[at - 1], polygon[at], there, here)
            front.append(corner)
            back.append(corner)
        if here >= 0:
            front.append(polygon[at])
        if here <= 0:
            back.append(polygon[at])
    return front, back


def split(polygon, plane):
    """What a plane leaves of a polygon in front and behind."""
    return parted(polygon, [value(plane, corner) for corner in polygon], cut)


def cut(first, second, here, there):
    """The point on a plane, between two on either side of it whose values are given."""
    return between(first, second, Fraction(here) / (here - there))


def in_front(polygon, planes):
    """What of a polygon lies in front of all of some planes, or None where nothing does, or there was no polygon."""
    for plane in planes:
        if polygon is None:
            return None
        polygon, _ = split(polygon, plane)
    return polygon


def on_plane(plane, bound):
    """What a plane has of the closed cube, or None."""
    across = max(range(3), key=lambda axis: abs(plane[axis]))
    one, other = (axis for axis in range(3) if axis != across)
    corners = []
    for at_one, at_other in square(bound):
        corner = [0, 0, 0]
        corner[one], corner[other] = at_one, at_other
        corner[across] = Fraction(plane[3] - plane[one] * at_one - plane[other] * at_other, plane[across])
        corners.append(tuple(corner))
    return in_front(corners, [wall for wall in walls(bound) if wall[across]])


def part_in_front(first, second, planes):
    """From which part to which other one the segment of two points is behind none of some planes, or None."""
    low, high = 0, 1
    for plane in planes:
        here, there = value(plane, first), value(plane, second)
        if here < 0 and there < 0:
            return None
        if here < 0:
            low = max(low, Fraction(here) / (here - there))
        elif there < 0:
            high = min(high, Fraction(here) / (here - there))
    return (low, high) if low <= high else None


def middle(points):
    """The mean of some points. Of the corners of a convex thing it lies strictly inside."""
    return tuple(Fraction(sum(coordinates), len(points)) for coordinates in zip(*points))


def crossing(polygon, height):
    """The two ends of what a polygon has at a height, or None where it is not on both sides. A corner at the height
    counts as below it, as a slice shows what is just above."""
    above = [corner[2] > height for corner in polygon]
    ends = []
    for at, here in enumerate(polygon):
        there = polygon[at - 1]
        if above[at] != above[at - 1]:
            ends.append(between(there, here, Fraction(height - there[2]) / (here[2] - there[2])))
    return ends or None
