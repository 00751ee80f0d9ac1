"""What of a view is still open, while surfaces are put before it from the nearest on.

The view is a tree of its own, whose planes all go through the eye: each part of it is a beam of lines from the eye, open or
covered. A surface is cut where beams end, so what is left of it is what is seen, without rounding."""

from math import gcd

import corners

OPEN, COVERED = "open", "covered"


class Beam:
    """A part of the view: open, covered, or parted by a plane through the eye into two."""

    __slots__ = ("state", "plane", "front", "back")

    def __init__(self, state=OPEN):
        self.state, self.plane, self.front, self.back = state, None, None, None

    def narrow(self, planes, within, outside):
        """Parts this beam: what lies in front of all of some planes becomes the one, and the rest the other."""
        beam = self
        for plane in planes:
            beam.state, beam.plane, beam.front, beam.back = None, plane, Beam(), Beam(outside)
            beam = beam.front
        beam.state = within

    def open_parts(self, polygon):
        """The parts of a polygon, or of a piece of a line, that lie in open beams, each with its beam."""
        found, waiting = [], [(self, polygon)]
        while waiting:
            beam, part = waiting.pop()
            if beam.state == OPEN:
                found.append((beam, part))
            elif beam.state is None and beam.front.state == beam.back.state == COVERED:
                beam.state = COVERED
            elif beam.state is None:
                front, back = corners.split(part, beam.plane)
                waiting += [(below, piece) for below, piece in ((beam.back, back), (beam.front, front)) if piece]
        return found

    def put(self, eye, polygon, covers):
        """The parts that are seen of a polygon, which goes round against the clock as seen from the eye. Where it covers, they are
        open no longer."""
        parts = self.open_parts(polygon)
        planes = sides(eye, polygon) if parts and covers else []
        for beam, part in parts if covers else []:
            beam.narrow([plane for plane in planes if borders(part, plane)], COVERED, OPEN)
        return [part for _, part in parts]


def through(eye, first, second):
    """The plane through the eye and two corners, with that to its front which is left of the way from the first to the second as
    seen from the eye."""
    def minor(a, b, c):
        return (eye[a] * (first[b] * second[c] - first[c] * second[b]) - eye[b] * (first[a] * second[c] - first[c] * second[a])
                + eye[c] * (first[a] * second[b] - first[b] * second[a]))
    numbers = -minor(1, 2, 3), minor(0, 2, 3), -minor(0, 1, 3), -minor(0, 1, 2)
    common = gcd(*numbers)
    return tuple(number // common for number in numbers)


def sides(eye, polygon):
    """The planes through the eye and each side of a polygon, with the polygon to their front."""
    return [through(eye, polygon[at - 1], polygon[at]) for at in range(len(polygon))]


def borders(part, plane):
    """Whether a side of a part lies on a plane."""
    return sum(value == 0 for value in corners.values(part, plane)) > 1
