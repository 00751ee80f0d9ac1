"""A player that walks through a level by itself, and where it was: each place is held to the tree file and to the hulls."""

import re
from typing import NamedTuple

from bsp_reader import SOLID
from spots import spots, told

SECONDS, TOLD = 60, 12
# as an engine tells a place: each coordinate as a whole part and 4096th parts, then what fills it and how deep the player is in a liquid
PLACE = re.compile(r"place (-?\d+) (\d+) (-?\d+) (\d+) (-?\d+) (\d+) (-?\d+) (\d)")
CODES = {"empty": -1, "solid": -2, "water": -3, "slime": -4, "lava": -5, "sky": -6}
# how far off a place may be told, and the longest that a run may take
NEAR, LONGEST = 1 / 64, 400


class Walk(NamedTuple):
    """The places, in how many leaves they lie and how many in liquids; those in solid, those that a hull has as solid, and those at
    which the engine finds other contents than the tree has."""
    places: list
    leaves: int
    in_liquid: int
    in_solid: list
    in_hull: list
    other: list


def walk(engine, level_name, level, tree, rng):
    """Lets a player walk, and tells where it was."""
    places = spots(level, TOLD, rng)
    lines = ["scratch4 1", "temp1 0", f"scratch3 {len(places)}", f"saved4 {SECONDS}", *told(places)]
    printed = engine.play(level_name, lines, LONGEST)
    found = []
    for numbers in PLACE.findall(printed):
        x, a, y, b, z, c, contents, depth = map(int, numbers)
        found.append(((x + a / 4096, y + b / 4096, z + c / 4096), contents, depth))
    return held(found, level, tree), printed


def around(place):
    """A place, and those a little off it, as it is told without all its digits."""
    x, y, z = place
    yield place
    for dx in (-NEAR, NEAR):
        for dy in (-NEAR, NEAR):
            for dz in (-NEAR, NEAR):
                yield x + dx, y + dy, z + dz


def contents(tree, place):
    """The codes of what the tree has at a place, or a little off it."""
    return {CODES[tree.leaves[tree.leaf_at(near)].contents] for near in around(place)}


def held(found, level, tree):
    """What is wrong with some places, each with the contents that the engine found there, or None."""
    leaves, in_liquid, in_solid, in_hull, other = set(), 0, [], [], []
    head = level.models[0].heads[1]
    for place, code, _ in found:
        here = contents(tree, place)
        leaves.add(tree.leaf_at(place))
        in_liquid += not here.isdisjoint((-3, -4, -5))
        if here == {SOLID}:
            in_solid.append(place)
        if all(level.clip_at(near, head) == SOLID for near in around(place)):
            in_hull.append(place)
        if code is not None and code not in here:
            other.append((place, code))
    return Walk([place for place, _, _ in found], len(leaves), in_liquid, in_solid, in_hull, other)
