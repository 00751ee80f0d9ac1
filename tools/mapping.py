"""How a texture lies on a face: two directions in space, along which its columns and its rows go, each with an offset.

In the standard form the texture lies along two axes of space, chosen by the normal, and is turned by an angle; in the Valve form both
directions stand in the map. Words that are no numbers count as 0, and a scale of 0 as 1."""

from fractions import Fraction
from functools import lru_cache
from math import cos, radians, sin
import re
from typing import NamedTuple

from mapfaces import STANDARD
from origins import NUMBER

SPELLED = re.compile(rb"(%b)(?:[eE]([+-]?[0-9]{1,2}))?" % NUMBER)
LONGEST = 40
# the normals to which a face's is compared, the first of the nearest counts; and the axes of the texture then
BASES = (((0, 0, 1), 0, 1), ((0, 0, -1), 0, 1), ((1, 0, 0), 1, 2), ((-1, 0, 0), 1, 2), ((0, 1, 0), 0, 2), ((0, -1, 0), 0, 2))
# sine and cosine of the angles at which they are whole
QUARTERS = {0: (0, 1), 90: (1, 0), 180: (0, -1), 270: (-1, 0)}
# fractions and whole numbers that engines do not round, and the farthest number that is written
PLAIN, WHOLE, FARTHEST = (1, 2, 4, 8, 16), 1 << 12, 1e9
# in how many parts of 1 others are counted
PARTS = 1 << 20


class Way(NamedTuple):
    """A direction of a texture: its three parts and an offset; the same as they are written; and whether engines compute places along
    it without rounding, for corners that are as plain."""
    parts: tuple
    written: tuple
    is_plain: bool


@lru_cache(maxsize=None)
def number(word):
    """The number that a word spells, or 0."""
    match = SPELLED.fullmatch(word) if len(word) <= LONGEST else None
    return Fraction(match[1].decode()) * Fraction(10) ** int(match[2] or 0) if match else Fraction(0)


@lru_cache(maxsize=None)
def laid(plane, mapping):
    """Of a face with an outward plane: the direction of the columns, and that of the rows."""
    numbers = [number(word) for word in mapping]
    if len(mapping) == STANDARD:
        shift, angle, scale = numbers[0:2], numbers[2], numbers[3:5]
        directions = turned(plane, angle)
    else:
        shift, scale = (numbers[3], numbers[7]), numbers[9:11]
        directions = numbers[0:3], numbers[4:7]
    return tuple(way([part / (by or 1) for part in direction] + [offset]) for direction, by, offset in zip(directions, scale, shift))


def way(parts):
    """A direction with some parts."""
    written = tuple(min(max(float(part), -FARTHEST), FARTHEST) for part in parts)
    return Way(tuple(parts), written, all(part.denominator in PLAIN and abs(part) < WHOLE for part in parts))


def turned(plane, angle):
    """The directions of a standard mapping, turned by an angle in degrees."""
    along = [sum(a * b for a, b in zip(plane, normal)) for normal, _, _ in BASES]
    _, across, down = BASES[along.index(max(along))]
    sine, cosine = turn(angle)
    first, second = [Fraction(0)] * 3, [Fraction(0)] * 3
    first[across], first[down] = cosine, sine
    second[across], second[down] = sine, -cosine
    return first, second


def turn(angle):
    """The sine and the cosine of an angle, exact where they are whole."""
    if angle % 360 in QUARTERS:
        sine, cosine = QUARTERS[angle % 360]
        return Fraction(sine), Fraction(cosine)
    return tuple(Fraction(round(PARTS * part), PARTS) for part in (sin(radians(angle)), cos(radians(angle))))
