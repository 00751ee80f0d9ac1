"""Pairs of views of a level, with and without its visibility, compared pixel by pixel."""

from struct import unpack_from
from typing import NamedTuple

from engines import Failed, LARGE
from spots import EYES, spots, told

VIEWS, LONGEST = 8, 400


class Pair(NamedTuple):
    """The two pictures of a view, and how many pixels differ."""
    shown: object
    whole: object
    differ: int


def pixels(name):
    """The size of a picture, and its pixels of three bytes each: a TGA file as engines write it, without a palette and without runs."""
    data = name.read_bytes()
    length, kind = data[0], data[2]
    width, height, bits = unpack_from("<HHB", data, 12)
    if kind != 2 or bits != 24:
        raise Failed(f"{name.name} is no plain picture of 24 bits")
    begin = 18 + length
    return (width, height), data[begin:begin + 3 * width * height]


def differing(one, other):
    """How many pixels of two pictures differ."""
    (size, first), (other_size, second) = pixels(one), pixels(other)
    if size != other_size:
        raise Failed(f"{one.name} and {other.name} are not of one size")
    if first == second:
        return 0
    return sum(first[at:at + 3] != second[at:at + 3] for at in range(0, len(first), 3))


def look(engine, level_name, level, rng, count=VIEWS):
    """Pairs of views from places by chance."""
    places = [(x, y, z + EYES) for x, y, z in spots(level, count, rng)]
    looks = [(rng.choice((-15, 0, 0, 15, 30)), rng.randrange(0, 360, 5)) for _ in places]
    lines = ["scratch4 2", "saved4 0", "temp1 0", f"scratch3 {len(places)}", *engine.still, *told(places, looks)]
    printed = engine.play(level_name, lines, LONGEST, LARGE)
    pictures = engine.pictures()
    if len(pictures) != 2 * len(places):
        raise Failed(f"{engine.name} took {len(pictures)} pictures of {level_name.name}, and not {2 * len(places)}")
    pairs = [Pair(one, other, differing(one, other)) for one, other in zip(pictures[::2], pictures[1::2])]
    return pairs, printed
