"""Reads the entities of a MAP text: their pairs, and where their brushes stand. What stands inside a brush is not looked at."""

import re
from typing import NamedTuple

# of the words of a face many are taken at once: after the first one those that begin as no bracket, quote or comment does
TOKEN = re.compile(rb'(?P<comment>//[^\n]*)|"(?P<quoted>[^"]*)"|(?P<unclosed>")|(?P<bracket>[{}])(?![^\x00-\x20])'
                   rb'|(?P<words>[^\x00-\x20]+(?:[\x00-\x20]+[^\x00-\x20"{}/][^\x00-\x20]*)*)')
# how far from 0 a coordinate of a map can be
EXTENT = 32768
# how deep a token stands: beside the entities, in one, or in a brush of one
BESIDE, INSIDE, IN_A_BRUSH = range(3)


class NoMap(Exception):
    """Why a text is no map."""


class Brush(NamedTuple):
    """Where the token before a brush ends, and where the brush ends: so blanks and comments before it are within."""
    begin: int
    end: int


class Entity(NamedTuple):
    """The keys and values of an entity in turn, its brushes, and where the last token before its `}` ends."""
    quoted: list
    brushes: list
    last: int

    def pairs(self):
        """The pairs, in their order."""
        return list(zip(self.quoted[::2], self.quoted[1::2]))

    def value(self, key):
        """The value of the first pair with a key, or None."""
        return next((value for other, value in self.pairs() if other == key), None)


def load(name):
    """The text of a map."""
    with open(name, "rb") as file:
        return file.read()


def entities(text):
    """The entities of a text, or `NoMap`."""
    found, depth, last, begin = [], BESIDE, 0, 0
    for token in TOKEN.finditer(text):
        if token.lastgroup == "comment":
            continue
        wrong = refusal(token, depth, found)
        if wrong:
            raise NoMap(f"line {text.count(10, 0, token.start()) + 1}: {wrong}")
        if token.lastgroup == "quoted" and depth == INSIDE:
            found[-1].quoted.append(token["quoted"])
        elif token["bracket"] == b"{":
            begin, depth = last, depth + 1
            if depth == INSIDE:
                found.append(Entity([], [], 0))
        elif token["bracket"] == b"}":
            depth -= 1
            if depth == INSIDE:
                found[-1].brushes.append(Brush(begin, token.end()))
            else:
                found[-1] = found[-1]._replace(last=last)
        last = token.end()
    if depth or not found:
        raise NoMap("it ends inside an entity" if depth else "it has no entity")
    return found


def refusal(token, depth, found):
    """Why a token may not stand so deep, or None."""
    kind, bracket = token.lastgroup, token["bracket"]
    if kind == "unclosed":
        return "a quote is not closed"
    if depth == BESIDE and bracket != b"{":
        return "no entity begins there"
    if depth == INSIDE and kind == "words":
        return "neither a pair nor a brush begins there"
    if depth == INSIDE and bracket and len(found[-1].quoted) % 2:
        return "a key has no value"
    return "a brush is not ended" if depth == IN_A_BRUSH and bracket == b"{" else None
