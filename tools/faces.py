"""Reads the faces of a map from its text, and finds those whose points the compiler refuses, each with points near by that it
takes. What comes after the points of a face is not looked at.

A coordinate is counted in thousandths: a whole number where it has three decimals at most, else a fraction. Nothing is rounded
but to points of a grid."""

from fractions import Fraction
from functools import lru_cache
from math import gcd, lcm
import re
from typing import NamedTuple, Optional

import maptext
from origins import NUMBER
from points import decimal

TOKEN = re.compile(rb'//[^\n]*|(?P<token>"[^"]*"|[^\x00-\x20]+)')
# the words of three points: None stands for a number
FORM = [b"(", None, None, None, b")"] * 3
# how a number is spelled, and how many bytes it may have here
SPELLED, LONGEST = re.compile(NUMBER), 1000
# some editors write very small numbers so
WITH_EXPONENT = re.compile(rb"(?:%b)[eE][+-]?[0-9]{1,3}" % NUMBER)
# a unit of the map; how far from 0 a coordinate can be; and the greatest component of a plane's normal
UNIT = 1000
FARTHEST = UNIT * maptext.EXTENT
GREATEST = 2 ** 26
# the grids on which points are looked for, from the finest on. On the last no plane is too fine: its points are those of whole
# numbers, 8,192 apart at most in the largest world, taken eight times
GRIDS = [step for step in range(1, UNIT + 1) if UNIT % step == 0] + [2 * UNIT, 4 * UNIT, 8 * UNIT]


class Face(NamedTuple):
    """A face: the number of its entity and that of its brush there, from 0 on; the nine numbers of its points as they are spelled,
    and where each stands; and where the points end."""
    entity: int
    brush: int
    words: list
    places: list
    end: int


class RefusedFace(NamedTuple):
    """A face that the compiler refuses: where its fault stands in the text, and the fault; and the finest grid that serves, with the
    nearest points on it, or None twice."""
    face: Face
    place: int
    fault: str
    grid: Optional[int]
    points: Optional[list]


def faces(text):
    """Each face of a text, in turn. Raises `maptext.NoMap`."""
    for entity, what in enumerate(maptext.entities(text)):
        for brush, (begin, end) in enumerate(what.brushes):
            _, *tokens, _ = (token for token in TOKEN.finditer(text, begin, end) if token["token"])
            at = 0
            while at < len(tokens):
                yield face_of(text, tokens[at:at + len(FORM)], entity, brush)
                at += len(FORM)
                while at < len(tokens) and tokens[at]["token"] != FORM[0]:
                    at += 1


def face_of(text, tokens, entity, brush):
    """The face whose points some tokens spell."""
    words = [token["token"] for token in tokens]
    for at, wanted in enumerate(FORM):
        if at == len(words) or not fits(words[at], wanted):
            place = tokens[min(at, len(words) - 1)].start()
            raise maptext.NoMap(f"line {line_of(text, place)}: no three points of a face stand there")
    numbers = [at for at, wanted in enumerate(FORM) if wanted is None]
    return Face(entity, brush, [words[at] for at in numbers], [tokens[at].start() for at in numbers], tokens[-1].start())


@lru_cache(maxsize=None)
def fits(word, wanted):
    """Whether a word may stand where a mark is wanted, or a number, be it one that the compiler does not take."""
    if wanted:
        return word == wanted
    return len(word) <= LONGEST and bool(SPELLED.fullmatch(word) or WITH_EXPONENT.fullmatch(word))


def line_of(text, place):
    """The line of a place in a text."""
    return text.count(10, 0, place) + 1


@lru_cache(maxsize=None)
def thousandths(word):
    """The number that a word spells, in thousandths."""
    value = Fraction(word.decode()) * UNIT
    return value.numerator if value.denominator == 1 else value


@lru_cache(maxsize=None)
def fault_of(word):
    """The fault of a coordinate, or None."""
    if not SPELLED.fullmatch(word):
        return "bad number"
    if thousandths(word).denominator > 1:
        return "fraction"
    return "coordinate out of range" if abs(thousandths(word)) > FARTHEST else None


def grouped(numbers):
    """Nine numbers as three points."""
    return [numbers[at:at + 3] for at in range(0, 9, 3)]


def outward(points):
    """The outward plane of three points in lowest terms, or None where they lie on one line."""
    first, middle, last = points
    (a, b, c), (d, e, f) = ([to - at for at, to in zip(middle, end)] for end in (first, last))
    normal = b * f - c * e, c * d - a * f, a * e - b * d
    if not any(normal):
        return None
    numbers = [UNIT * number for number in normal] + [sum(number * at for number, at in zip(normal, middle))]
    times = lcm(*(number.denominator for number in numbers))
    whole = [int(times * number) for number in numbers]
    common = gcd(*whole)
    return [number // common for number in whole]


def is_too_fine(plane):
    """Whether a component of a plane's normal is too large."""
    return max(map(abs, plane[:3])) > GREATEST


def refused(face):
    """What the compiler refuses of a face, or None."""
    numbers = [thousandths(word) for word in face.words]
    plane = outward(grouped(numbers))
    for word, place in zip(face.words, face.places):
        if fault_of(word):
            return RefusedFace(face, place, fault_of(word), *mended(numbers, plane))
    if plane and not is_too_fine(plane):
        return None
    return RefusedFace(face, face.end, "plane too fine" if plane else "no normal", *mended(numbers, plane))


def mended(numbers, plane):
    """The finest grid that serves, and the nearest points on it; or None twice. They give a plane that faces the same way; where a
    point lies outside the cube they have to give the same plane, and lie in the cube."""
    is_outside = max(map(abs, numbers)) > FARTHEST
    for grid in GRIDS if plane else ():
        near = [min(max(grid * round(Fraction(number) / grid), -FARTHEST), FARTHEST) for number in numbers]
        found = outward(grouped(near))
        if found and not is_too_fine(found) and (found == plane if is_outside else faces_alike(found, plane)):
            return grid, grouped(near)
    return None, None


def faces_alike(one, other):
    """Whether the normals of two planes point the same way rather than against one another."""
    return sum(a * b for a, b in zip(one[:3], other[:3])) > 0


def told(text, what):
    """The line that tells of a face that is refused."""
    near = "no points near these serve"
    if what.points:
        points = (" ".join(decimal(Fraction(number, UNIT), 3) for number in point) for point in what.points)
        near = f"on the grid of {Fraction(what.grid, UNIT)}: ( {' ) ( '.join(points)} )"
    return f"line {line_of(text, what.place)}, entity {what.face.entity}, brush {what.face.brush}: {what.fault}; {near}\n"
