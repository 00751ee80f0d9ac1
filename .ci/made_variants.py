#!/usr/bin/env python3
"""Prints a MAP text with all points of faces and origins scaled, and then moved.

    .ci/made_variants.py MAP TIMES [X,Y,Z]

TIMES is a fraction, as 3 or 1/8; X, Y and Z may have decimals. Numbers are kept exactly; where one would need more decimals than it
may have, three of a face and six of an origin, that is said, and nothing is printed."""

from fractions import Fraction
from pathlib import Path
import re
import sys

sys.path.insert(0, str(Path(__file__).resolve().parent.parent / "tools"))

from origins import NUMBER
from points import decimal

BLANKS = rb"[\x00-\x20]+"
THREE = BLANKS.join([rb"(%b)" % NUMBER] * 3)
# what stands before three numbers, these, and what follows
POINT = re.compile(rb"(\(%b)%b(?=%b\))" % (BLANKS, THREE, BLANKS))
ORIGIN = re.compile(rb'("origin"%b")%b(?=")' % (BLANKS, THREE))
PLACES = {POINT: 3, ORIGIN: 6}


class TooFine(Exception):
    """A number that needs more decimals than it may have."""


def number(word):
    """The value of a number of a text."""
    return Fraction(word.decode())


def points(text):
    """The points of all faces."""
    return [tuple(map(number, match.groups()[1:])) for match in POINT.finditer(text)]


def varied(text, times, by=(0, 0, 0)):
    """The text with its points and origins scaled and then moved. Raises `TooFine`."""
    for form, places in PLACES.items():
        text = form.sub(lambda match: match[1] + spelled(
            [times * number(word) + way for word, way in zip(match.groups()[1:], by)], places), text)
    return text


def spelled(values, places):
    """Some numbers with so many decimals at most."""
    if any((value * 10 ** places).denominator > 1 for value in values):
        raise TooFine(f"{', '.join(map(str, values))} would need more than {places} decimals")
    return " ".join(decimal(value, places) for value in values).encode()


def main():
    by = [Fraction(word) for word in sys.argv[3].split(",")] if len(sys.argv) > 3 else (0, 0, 0)
    try:
        sys.stdout.buffer.write(varied(Path(sys.argv[1]).read_bytes(), Fraction(sys.argv[2]), by))
    except TooFine as fault:
        sys.exit(f"{sys.argv[1]}: {fault}")


if __name__ == "__main__":
    main()
