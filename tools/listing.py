"""Reads a listing of portals, in the form PRT1: each portal with the numbers of the two leaves that it joins."""

from fractions import Fraction
from functools import lru_cache
import re

NUMBER = r"-?\d+(?:\.\d{6})?"
PORTAL = re.compile(rf"(\d+) (\d+) (\d+) ((?:\({NUMBER} {NUMBER} {NUMBER} \) )+)")


class NoListing(Exception):
    """Why a text is no listing of portals."""


def load(name):
    """How many leaves a file speaks of, and its portals: of each the two leaves, by their numbers among those that are not
    solid, and the corners."""
    with open(name, encoding="ascii", errors="replace") as file:
        lines = file.read().split("\n")
    if lines[0] != "PRT1":
        raise NoListing("line 1 is not PRT1")
    counts = [int(line) for line in lines[1:3] if re.fullmatch(r"\d{1,18}", line)]
    if len(counts) < 2:
        raise NoListing("lines 2 and 3 are not how many leaves and portals there are")
    leaves, portals = counts
    if len(lines) != portals + 4 or lines[-1]:
        raise NoListing(f"there are not {portals} portals, a line each")
    return leaves, [portal(line, number, leaves) for number, line in enumerate(lines[3:-1], 4)]


def portal(line, number, leaves):
    """What the line of a portal says."""
    match = PORTAL.fullmatch(line)
    if not match:
        raise NoListing(f"line {number} is not a portal")
    count, front, back = (int(word) for word in match.group(1, 2, 3))
    points = re.findall(r"\((\S+) (\S+) (\S+) \)", match.group(4))
    if count != len(points) or count < 3 or front == back or max(front, back) >= leaves:
        raise NoListing(f"line {number} is not a portal")
    return front, back, [tuple(map(exact, point)) for point in points]


@lru_cache(maxsize=None)
def exact(word):
    """The number that a word says, whole or not. Most words of a listing come more than once."""
    return Fraction(word) if "." in word else int(word)
