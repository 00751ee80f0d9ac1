"""Moves the brushes of groups into the world: editors put what is grouped, or drawn on a layer, into entities of its own, and
the compiler takes the brushes of the world alone."""

from typing import NamedTuple

import maptext

# the classes of the entities whose brushes are the world's
CLASSES = (b"func_group", b"func_detail")


class Moved(NamedTuple):
    """The parts of a text with its brushes moved, and how many these are, of how many entities."""
    parts: list
    brushes: int
    entities: int


def moved(text):
    """The text in which the brushes of groups stand in the world, after its own. Each goes with the blanks and comments
    before it, and the entity stays, with its pairs; all else is as it was. Raises `maptext.NoMap`."""
    world, *others = maptext.entities(text)
    groups = [entity for entity in others if entity.value(b"classname") in CLASSES and entity.brushes]
    brushes = [brush for entity in groups for brush in entity.brushes]
    parts, at = [text[:world.last]], world.last
    parts += [apart(text[brush.begin:brush.end]) for brush in brushes]
    for brush in brushes:
        parts.append(text[at:brush.begin])
        at = brush.end
    parts.append(text[at:])
    if brushes:
        first = len(brushes) + 1
        parts[first] = apart(parts[first])
    return Moved(parts, len(brushes), len(groups))


def apart(part):
    """A part that goes on after a bracket, parted from it where no blank does that."""
    return part if part[0] <= 32 else b"\n" + part
