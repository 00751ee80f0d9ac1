"""Plain slow brush models of a map, by exact fractions, and from the definitions: the corners of a body are all points in which three
of its planes meet and that are behind none. It shares nothing with the tools but the reader of tree files, whose cells the leaves are.

A plane is four whole numbers, turned so that its body lies in front."""

from fractions import Fraction
from itertools import combinations
from math import gcd, lcm

# the strongest contents first
STRENGTH = ("solid", "sky", "lava", "slime", "water")


def walls(bound):
    """The walls of the cube."""
    return [(1, 0, 0, -bound), (-1, 0, 0, -bound), (0, 1, 0, -bound), (0, -1, 0, -bound), (0, 0, 1, -bound), (0, 0, -1, -bound)]


def inward(points):
    """The plane through the three points of a face, with the inside of its brush in front."""
    first, middle, last = points
    a, b = ([Fraction(to) - at for at, to in zip(middle, end)] for end in (first, last))
    across = a[1] * b[2] - a[2] * b[1], a[2] * b[0] - a[0] * b[2], a[0] * b[1] - a[1] * b[0]
    plane = [-number for number in (*across, sum(n * x for n, x in zip(across, middle)))]
    times = lcm(*(Fraction(number).denominator for number in plane))
    whole = [int(number * times) for number in plane]
    return tuple(number // gcd(*whole) for number in whole)


def value(plane, corner):
    """How far in front of a plane a corner is: three whole numbers and a weight above 0."""
    return plane[0] * corner[0] + plane[1] * corner[1] + plane[2] * corner[2] - plane[3] * corner[3]


def meeting(one, two, three):
    """The corner in which three planes meet, or None."""
    def minor(p, q, i, j):
        return p[i] * q[j] - p[j] * q[i]
    x, y, z = minor(two, three, 1, 2), -minor(two, three, 0, 2), minor(two, three, 0, 1)
    weight = one[0] * x + one[1] * y + one[2] * z
    if not weight:
        return None
    normals, ends = (one, two, three), (one[3], two[3], three[3])
    found = []
    for axis in range(3):
        a, b, c = ([*plane[:axis], end, *plane[axis + 1:3]] for plane, end in zip(normals, ends))
        found.append(a[0] * minor(b, c, 1, 2) - a[1] * minor(b, c, 0, 2) + a[2] * minor(b, c, 0, 1))
    way = 1 if weight > 0 else -1
    return (*(way * number for number in found), way * weight)


def corners(planes):
    """The corners of what is behind none of some planes, which is bounded."""
    planes = list(dict.fromkeys(planes))
    found = (meeting(*three) for three in combinations(planes, 3))
    return {corner for corner in found if corner and all(value(plane, corner) >= 0 for plane in planes)}


def has_inside(planes, found):
    """Whether a body with these corners has a point in front of all its planes: then the mean of its corners is one."""
    times = lcm(*(corner[3] for corner in found)) if found else 1
    mean = [sum(corner[axis] * (times // corner[3]) for corner in found) for axis in range(3)] + [times * len(found)]
    return bool(found) and all(value(plane, mean) > 0 for plane in planes)


class Body:
    """A brush that is not flat: its planes, what it holds, and its corners in the cube."""

    def __init__(self, planes, contents, bound):
        self.planes, self.contents = planes, contents
        self.corners = corners(planes + walls(bound))

    def is_flat(self, bound):
        return not has_inside(self.planes + walls(bound), self.corners)

    def holds(self, point):
        """Whether a point is behind none of its planes."""
        return all(value(plane, point) >= 0 for plane in self.planes)

    def reaches(self, cell, bound):
        """Whether it has a point inside a cell: what is in front of some planes. None has it where all corners are behind one."""
        if any(all(value(plane, corner) <= 0 for corner in self.corners) for plane in cell):
            return False
        planes = self.planes + cell + walls(bound)
        return has_inside(planes, corners(planes))


def cells(tree):
    """Of each numbered leaf its number and the planes above it, turned to it."""
    waiting = [(0 if tree.nodes else -1, [])]
    while waiting:
        child, way = waiting.pop()
        if child >= 0:
            number, front, back = tree.nodes[child]
            plane = tuple(tree.planes[number])
            waiting += [(front, way + [plane]), (back, way + [tuple(-part for part in plane)])]
        elif tree.leaves[-1 - child].number is not None:
            yield tree.leaves[-1 - child].number, way


def bodies(brushes, bound):
    """Those of some brushes, each its planes and what it holds, that are in models: neither clip nor flat."""
    found = [Body(planes, contents, bound) for planes, contents in brushes if contents != "clip"]
    return [body for body in found if not body.is_flat(bound)]


def box(found):
    """The least box of whole numbers around some bodies."""
    points = [corner for body in found for corner in body.corners]
    return (*(min(corner[axis] // corner[3] for corner in points) for axis in range(3)),
            *(max(-(-corner[axis] // corner[3]) for corner in points) for axis in range(3)))


def leaves(found, tree):
    """The numbers of the leaves into which some body reaches."""
    return sorted(number for number, cell in cells(tree) if any(body.reaches(cell, tree.bound) for body in found))


def contents_at(found, point):
    """The strongest contents of the bodies that hold a point, of which three numbers are given."""
    times = lcm(*(Fraction(number).denominator for number in point))
    corner = (*(int(number * times) for number in point), times)
    held = {body.contents for body in found if body.holds(corner)}
    return next((contents for contents in STRENGTH if contents in held), "empty")


def is_on_plane(found, point):
    """Whether a point lies on a plane of some brush."""
    return any(plane[0] * point[0] + plane[1] * point[1] + plane[2] * point[2] == plane[3] for planes, _ in found for plane in planes)
