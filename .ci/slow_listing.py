"""A plain slow reader of listings of portals, in the form PRT1: how many leaves and portals there are, or the first fault in the
order of the text, with its place."""

import re

WHOLE = re.compile(rb"0|[1-9][0-9]{0,17}")
COORDINATE = re.compile(rb"(-?)(0|[1-9][0-9]*)(?:\.([0-9]{6}))?")
MOST_MILLIONTHS = 32768 * 1000000


class Fault(Exception):
    """Why a text is no listing: what is wrong, and at which byte."""

    def __init__(self, word, place):
        super().__init__(f"{word} at byte {place}")


def count(text):
    """How many leaves and portals a listing has."""
    if not text.startswith(b"PRT1\n"):
        raise Fault("header", 0)
    leaves, at = whole(text, 5, 10)
    portals, at = whole(text, at, 10)
    done = 0
    while done < portals:
        at = read_portal(text, at, leaves)
        done += 1
    if at < len(text):
        raise Fault("trailing", at)
    return leaves, portals


def read_portal(text, at, leaves):
    """The place behind the line of a portal."""
    points, at = whole(text, at, 32, lambda number: number >= 3)
    leaf0, at = whole(text, at, 32, lambda number: number < leaves)
    _, at = whole(text, at, 32, lambda number: number < leaves and number != leaf0)
    done = 0
    while done < points:
        at = due(text, at, 40)
        for _ in range(3):
            at = coordinate(text, at)
        at = due(text, due(text, at, 41), 32)
        done += 1
    return due(text, at, 10)


def numeral(text, at):
    """The longest run of digits, `-` and `.` from a place on."""
    return re.compile(rb"[0-9.-]*").match(text, at).group()


def due(text, at, byte):
    """The place behind a byte that has to stand there."""
    if text[at:at + 1] != bytes([byte]):
        raise Fault("shape", at)
    return at + 1


def whole(text, at, byte, is_right=lambda number: True):
    """A count or a number of a leaf, and the place behind it and the byte that is due."""
    word = numeral(text, at)
    if not WHOLE.fullmatch(word):
        raise Fault("number", at)
    if not is_right(int(word)):
        raise Fault("shape", at)
    return int(word), due(text, at + len(word), byte)


def coordinate(text, at):
    """The place behind a coordinate and a space."""
    word = numeral(text, at)
    match = COORDINATE.fullmatch(word)
    millionths = int(match[2]) * 1000000 + int(match[3] or 0) if match else 0
    if not match or millionths > MOST_MILLIONTHS or match[1] and not millionths:
        raise Fault("number", at)
    return due(text, at + len(word), 32)
