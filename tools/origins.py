"""Reads which entities of a map stand at a place, from its text, and finds the one at which a look around begins."""

from fractions import Fraction
import re
from typing import NamedTuple, Optional

import maptext
from points import decimal

NUMBER = rb"[+-]?(?:[0-9]+\.?[0-9]*|\.[0-9]+)"
ORIGIN = re.compile(rb"[\x00-\x20]*(%b)[\x00-\x20]+(%b)[\x00-\x20]+(%b)[\x00-\x20]*" % (NUMBER, NUMBER, NUMBER))
ANGLE = re.compile(rb"[\x00-\x20]*(%b)[\x00-\x20]*" % NUMBER)
# the classes of player starts, in lower case: of one player, of all against all, and of teams
STARTS = [re.compile(words) for words in (
    r"info_player_start\d?", "info_player_deathmatch", r"info_player_(team\w*|coop)|team_ctf_(red|blue)(player|spawn)")]
# how far above a player's origin the eyes are, as in Quake
EYES = 22
START, LIGHT, OTHER = "player start", "light", "entity"


class Mark(NamedTuple):
    """An entity that stands at a place: its class and its `targetname`, the place, and where it looks, in degrees from east
    against the clock, or None where the map does not say."""
    name: str
    target: str
    place: tuple
    angle: Optional[Fraction]

    def rank(self):
        """How soon a look around begins here: the place of the class among `STARTS`, or behind them all."""
        found = (at for at, start in enumerate(STARTS) if start.fullmatch(self.name.lower()))
        return next(found, len(STARTS))

    def kind(self):
        """As what it is marked."""
        if self.rank() < len(STARTS):
            return START
        return LIGHT if self.name.lower().startswith("light") else OTHER

    def told(self):
        """What is said of it: its class, its name where it has one, and its place."""
        return " ".join(filter(None, (self.name, self.target, "at", ",".join(decimal(number, 6) for number in self.place))))

    def eyes(self):
        """Where the eyes of a player are who begins here; of another entity, where it stands."""
        x, y, z = self.place
        return (x, y, z + EYES) if self.kind() == START else self.place


def load(name):
    """The entities of a map, the world first."""
    return maptext.entities(maptext.load(name))


def marks(entities):
    """Those that stand at a place, but for the world, in their order."""
    return [mark_of(entity) for entity in entities[1:] if place_of(entity)]


def mark_of(entity):
    """What is marked of an entity that stands at a place."""
    return Mark(*named(entity), place_of(entity), angle_of(entity))


def named(entity):
    """The class of an entity and its `targetname`, in ASCII."""
    return tuple(plain(entity.value(key) or b"") for key in (b"classname", b"targetname"))


def told_of(model, entities):
    """What is said of a brush model: its class and its `targetname`, where the map has these, and the number of its entity."""
    names = named(entities[model.entity]) if model.entity < len(entities) else ()
    return ", ".join(filter(None, (" ".join(filter(None, names)), f"entity {model.entity}")))


def plain(text):
    """A text in ASCII."""
    return "".join(chr(byte) if 32 <= byte < 127 else "?" for byte in text)


def place_of(entity):
    """The point at which an entity stands, or None."""
    match = ORIGIN.fullmatch(entity.value(b"origin") or b"")
    return tuple(Fraction(word.decode()) for word in match.groups()) if match else None


def angle_of(entity):
    """The angle at which an entity looks, by its `angle`, or by the second number of its `angles`; or None."""
    one, three = ANGLE.fullmatch(entity.value(b"angle") or b""), ORIGIN.fullmatch(entity.value(b"angles") or b"")
    word = one.group(1) if one else three.group(2) if three else None
    return None if word is None else Fraction(word.decode())


def start(marks, is_open):
    """Of some entities the one at which a look around begins, and the place of the eyes there, or None: the first player start
    that stands in the open, by its class and then by the map's order; where there is none, the first entity that does."""
    found = next((mark for mark in sorted(marks, key=Mark.rank) if is_open(mark.place)), None)
    return found and (found, found.eyes() if is_open(found.eyes()) else found.place)
