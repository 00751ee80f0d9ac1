"""Tells of a fault of a level: its line, the text of that line, and a mark under the token that is refused, where it is known."""

from fractions import Fraction
from typing import NamedTuple

from compiler import Fault
import faces
import grammar
from maptext import EXTENT, NoMap
from origins import ORIGIN

UNEXPECTED = 3
# text too long, end inside, no entity
WITHOUT_TOKEN = (1, 4, 11)
# the faults of faces, by their names
NUMBERS = {"bad number": 5, "fraction": 6, "coordinate out of range": 7, "no normal": 8, "plane too fine": 12}
# how long a line may be that is shown as a whole, and how much is shown on each side of a mark of a longer one
WIDEST, ASIDE = 200, 80
# decimals that the value of an origin may have
PLACES = 6


class Place(NamedTuple):
    """Where a token stands in a text."""
    begin: int
    end: int


def place_of(text, fault):
    """Where the token of a fault stands on the fault's line, or None."""
    if fault.number in WITHOUT_TOKEN:
        return None
    begin, end = bounds(text, fault.line)
    reader = Judge()
    for part in grammar.parts(text):
        if part.begin >= end:
            return None
        if reader.fault(part) == fault.number and part.begin >= begin:
            return Place(part.begin, part.end)
    return None


class Judge:
    """What is wrong with a token, which may hang on those before it."""

    def __init__(self):
        self.words, self.key = [], None

    def fault(self, part):
        """The number of the fault of a part, or None."""
        if part.kind == grammar.KEY:
            self.key = part.word
        if part.kind == grammar.VALUE:
            return 10 if self.key == b"origin" and part.entity and not is_origin(part.word) else None
        if part.kind == grammar.NUMBER:
            self.words.append(part.word)
            return NUMBERS.get(faces.fault_of(part.word)) if is_short(part.word) else None
        if part.kind == grammar.POINTS_END:
            words, self.words = self.words, []
            return fault_of_points(words)
        return {grammar.UNCLOSED: 2, grammar.UNEXPECTED: UNEXPECTED, grammar.EMPTY_BRUSH_END: 9}.get(part.kind)


def fault_of_points(words):
    """The number of the fault of three points, whose numbers are coordinates; or None."""
    if not all(map(is_short, words)) or any(map(faces.fault_of, words)):
        return None
    plane = faces.outward(faces.grouped([faces.thousandths(word) for word in words]))
    if plane is None:
        return NUMBERS["no normal"]
    return NUMBERS["plane too fine"] if faces.is_too_fine(plane) else None


def is_short(word):
    """Whether a word is short enough to be read as a number here."""
    return len(word) <= faces.LONGEST


def is_origin(value):
    """Whether the value of an origin gives a point of the world."""
    match = ORIGIN.fullmatch(value) if is_short(value) else None
    numbers = [Fraction(word.decode()) for word in match.groups()] if match else []
    return bool(match) and all(abs(number) < EXTENT and 10 ** PLACES % number.denominator == 0 for number in numbers)


def bounds(text, line):
    """Where a line begins, and where it ends."""
    begin = 0
    for _ in range(line - 1):
        begin = text.find(b"\n", begin) + 1
    end = text.find(b"\n", begin)
    return begin, len(text) if end < 0 else end


def found(text, first, with_faces):
    """The first fault of a text, and of each face that is refused where these are asked for, in their order, each with its place; and
    why not all faces can be read, or None."""
    listed, why = of_faces(text) if with_faces else ({}, None)
    place = place_of(text, first)
    listed.setdefault(place.begin if place else len(text), (first, place))
    return [listed[at] for at in sorted(listed)], why


def of_faces(text):
    """The fault of each face that the compiler refuses, with its place, by where that begins; and why not all faces can be read."""
    listed = {}
    try:
        for what in filter(None, map(faces.refused, faces.faces(text))):
            fault = Fault(NUMBERS[what.fault], faces.line_of(text, what.place), what.fault)
            listed[what.place] = fault, Place(what.place, grammar.TOKEN.match(text, what.place).end())
    except NoMap as fault:
        return listed, fault
    return listed, None


def told(name, text, fault, place):
    """The lines that tell of a fault of a level: what it is, and the text of its line with a mark."""
    begin, end = bounds(text, fault.line)
    lines = [f"{name}:{fault.line}: fault {fault.number}: {fault.name}"]
    if place is None:
        shown = printable(text[begin:min(end, begin + WIDEST)]).rstrip()
        return lines + [shown] * bool(shown)
    low, high = begin, end
    if end - begin > WIDEST:
        low, high = max(begin, place.begin - ASIDE), min(end, place.begin + ASIDE)
    before, marked = printable(text[low:place.begin]), printable(text[place.begin:min(place.end, high)])
    behind = printable(text[place.begin:high])[len(marked):].rstrip()
    return lines + [before + marked + behind, " " * len(before) + "^" * max(1, len(marked))]


def printable(text):
    """A part of a line, a letter for each place."""
    return "".join(letter if letter.isprintable() else " " for letter in text.decode(errors="replace"))
