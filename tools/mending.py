"""Gives each face of a map that the compiler refuses points near by that it takes."""

from fractions import Fraction
from math import ceil
from typing import NamedTuple

import faces
from points import decimal

# decimals in which it is said how far points moved
PLACES = 6


class MendedFace(NamedTuple):
    """The line of a face, what was wrong with it, by how many thousandths a coordinate changed at most, and whether the plane is
    another one."""
    line: int
    fault: str
    moved: Fraction
    is_other: bool


class Mended(NamedTuple):
    """A text with its faces mended, and these."""
    text: bytes
    faces: list


def mended(text):
    """The text in which each face that is refused has the points near by, where there are any. Ends of lines stay. Raises
    `maptext.NoMap`."""
    parts, at, found = [], 0, []
    for face in faces.faces(text):
        what = faces.refused(face)
        if not what or not what.points:
            continue
        for place, word, number in zip(face.places, face.words, flat(what.points)):
            parts += [text[at:place], decimal(Fraction(number, faces.UNIT), 3).encode()]
            at = place + len(word)
        found.append(mended_face(text, what))
    return Mended(b"".join(parts) + text[at:], found)


def mended_face(text, what):
    """What is said of a face that is mended."""
    before = [faces.thousandths(word) for word in what.face.words]
    moved = max(abs(a - b) for a, b in zip(before, flat(what.points)))
    is_other = faces.outward(faces.grouped(before)) != faces.outward(what.points)
    return MendedFace(faces.line_of(text, what.place), what.fault, moved, is_other)


def flat(points):
    """The numbers of points, in turn."""
    return [number for point in points for number in point]


def told(name, face):
    """The line that tells of a face that is mended."""
    far = decimal(Fraction(ceil(face.moved * 10 ** PLACES / faces.UNIT), 10 ** PLACES), PLACES)
    plane = "" if face.is_other else ", in the same plane"
    return f"{name}:{face.line}: mended: {face.fault}; points moved by {far} at most{plane}"
