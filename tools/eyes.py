"""A place to look from: what lies in its frame, and where a corner stands in the picture."""

from fractions import Fraction
from math import ceil, hypot

import corners
from polygons import turned

# how far to each side the frame reaches for one unit ahead: 1 is a right angle from its left to its right side
SPAN = Fraction(1)
# so far before the eye a line begins to be drawn
NEAR = 1


class Eye:
    """A place, and the directions ahead, to the right and up from there, in whole numbers, not of one length."""

    def __init__(self, place, aim):
        self.place = place
        self.corner, ahead = corners.corner(place), corners.corner([b - a for a, b in zip(place, aim)])[:3]
        right = corners.reduced(ahead[1], -ahead[0], 0, 0)[:3] if ahead[0] or ahead[1] else (1, 0, 0)
        up = corners.reduced(*crossed(right, ahead), 0)[:3]
        self.ahead, self.right, self.up = (self.plane(way) for way in (ahead, right, up))
        self.wide, self.high = (hypot(*ahead) / hypot(*way) for way in (right, up))
        self.near = (*self.ahead[:3], self.ahead[3] + self.corner[3] * ceil(NEAR * hypot(*ahead)))

    def plane(self, way):
        """The plane through the eye across a direction, with that to its front to which the direction leads."""
        x, y, z, w = self.corner
        return way[0] * w, way[1] * w, way[2] * w, way[0] * x + way[1] * y + way[2] * z

    def frame(self, high):
        """The planes through the eye and the sides of a frame that is so high as a part of its width, with it to their front."""
        found = []
        for plane, by, span in ((self.right, self.wide, SPAN), (self.up, self.high, SPAN * high)):
            part = Fraction(by) / span
            for side in (plane, turned(plane, False)):
                found.append(tuple(part.denominator * a - part.numerator * b for a, b in zip(self.ahead, side)))
        return found

    def at(self, corner):
        """How far to the right and how far up a corner stands in the picture, for one unit ahead, as it is drawn."""
        ahead, right, up = (corners.value(plane, corner) for plane in (self.ahead, self.right, self.up))
        return self.wide * float(Fraction(right, ahead)), self.high * float(Fraction(up, ahead))

    def far(self, corner):
        """How far ahead a corner is, as it is drawn."""
        return corners.value(self.ahead, corner) / (corner[3] * hypot(*self.ahead[:3]))


def crossed(a, b):
    """The direction across two others."""
    return a[1] * b[2] - a[2] * b[1], a[2] * b[0] - a[0] * b[2], a[0] * b[1] - a[1] * b[0]


def nearest_first(tree, corner):
    """The leaves of a tree, in an order in which none hides from a corner a part of one before it."""
    waiting = [tree.root()]
    while waiting:
        child = waiting.pop()
        if child < 0:
            yield -1 - child
        else:
            plane, front, back = tree.nodes[child]
            waiting += [back, front] if corners.value(tree.planes[plane], corner) >= 0 else [front, back]
