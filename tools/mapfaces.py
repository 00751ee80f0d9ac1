"""Reads the brushes of a map from its text: of each face its plane, without rounding, its texture, and how the texture lies on it.

What a brush holds is told by the texture of its first face, as for the compiler."""

import re
from typing import NamedTuple

from faces import fault_of, grouped, is_too_fine, outward, thousandths
import maptext

TOKEN = re.compile(rb'//[^\n]*|("[^"]*"|[^\x00-\x20]+)')
MARKS = frozenset((b"{", b"}", b"(", b")", b"[", b"]"))
# how many tokens three points are, and where among them the numbers stand
POINTS, NUMBERS = 15, (1, 2, 3, 6, 7, 8, 11, 12, 13)
OPENING, CLOSING = [b"("] * 3, [b")"] * 3
# how many tokens a mapping of either form has, and the words among those of the Valve form
STANDARD, VALVE = 5, 15
AXES = (1, 2, 3, 4, 7, 8, 9, 10, 12, 13, 14)
# what the name of a brush's first texture begins with, and what the brush then holds; the first that fits counts
LIQUIDS = ((b"*lava", "lava"), (b"*slime", "slime"), (b"*", "water"))
CLIP = "clip"
# contents that stop a player
BLOCKING = frozenset(("solid", "sky", CLIP))


class Face(NamedTuple):
    """A side of a brush: its plane, turned outward; the name of its texture; and the words of its mapping, five of the standard
    form or eleven of the Valve form."""
    plane: tuple
    texture: bytes
    mapping: tuple

    def spelled(self):
        """The name of the texture as it stands in a text."""
        plain = self.texture and min(self.texture) > 32 and self.texture not in MARKS and not self.texture.startswith(b"//")
        return self.texture if plain else b'"%b"' % self.texture


class Brush(NamedTuple):
    """The faces of a brush, and where in the text the bracket stands that closes it."""
    faces: list
    closing: int

    def contents(self):
        """What the brush holds: `clip`, or contents of a leaf."""
        return contents_of(self.faces[0].texture)


class Entity(NamedTuple):
    """The keys and values of an entity, in their order, and its brushes."""
    pairs: list
    brushes: list

    def value(self, key):
        """The value of the first pair with a key, or None."""
        return next((value for other, value in self.pairs if other == key), None)


def entities(text):
    """The entities of a text, the world first. Raises `maptext.NoMap`."""
    return [Entity(what.pairs(), [brush_of(text, *brush) for brush in what.brushes]) for what in maptext.entities(text)]


def brush_of(text, begin, end):
    """The brush that stands at a place of a text."""
    words = [word for word in TOKEN.findall(text, begin, end) if word]
    at, found = 1, []
    while at < len(words) - 1:
        face, at = face_at(words, at, text, begin)
        found.append(face)
    if not found:
        raise maptext.NoMap(f"line {text.count(10, 0, end) + 1}: no faces")
    return Brush(found, end - 1)


def face_at(words, at, text, begin):
    """The face whose words begin there, and where they end. `text` and `begin` are for the line of what is wrong."""
    points, name = words[at:at + POINTS], at + POINTS
    if points[::5] != OPENING or points[4::5] != CLOSING:
        raise wrong(text, begin, at, "no three points of a face stand there")
    plane = plane_of([points[number] for number in NUMBERS], text, begin, at)
    is_valve = words[name + 1:name + 2] == [b"["]
    end = name + 1 + (VALVE if is_valve else STANDARD)
    mapping = words[name + 1:end]
    if is_valve and end < len(words) and mapping[0] == mapping[6] == b"[" and mapping[5] == mapping[11] == b"]":
        mapping = [mapping[number] for number in AXES]
    if end >= len(words) or not MARKS.isdisjoint(mapping) or words[name] in MARKS:
        raise wrong(text, begin, at, "no texture and mapping after the points of a face")
    return Face(plane, unquoted(words[name]), tuple(mapping)), end


def plane_of(numbers, text, begin, at):
    """The outward plane of three points, whose nine numbers are given as they are spelled."""
    for word in numbers:
        if fault_of(word):
            raise wrong(text, begin, at, fault_of(word))
    plane = outward(grouped([thousandths(word) for word in numbers]))
    if not plane or is_too_fine(plane):
        raise wrong(text, begin, at, "plane too fine" if plane else "no normal")
    return tuple(plane)


def wrong(text, begin, at, words):
    """Why a text is no map, with the line of the face that begins with some token of a brush."""
    tokens = [token.start() for token in TOKEN.finditer(text, begin) if token[1]]
    return maptext.NoMap(f"line {text.count(10, 0, tokens[at]) + 1}: {words}")


def unquoted(word):
    """The name of a texture without the quotes that it may stand in."""
    return word[1:-1] if word[:1] == b'"' and word[-1:] == b'"' and len(word) > 1 else word


def contents_of(name):
    """What a brush holds whose first face has a texture of that name."""
    name = name.lower()
    for begin, contents in LIQUIDS:
        if name.startswith(begin):
            return contents
    if name == b"clip":
        return CLIP
    return "sky" if name.startswith(b"sky") else "solid"
