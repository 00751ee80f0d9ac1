"""Places in a level at which a player can stand or float, found by chance: where its box meets nothing."""

from bsp_reader import SOLID

# how far places are from the planes of hulls, how many are tried for each that is found, and how far above its origin a player looks
MARGIN, TRIES, EYES = 1.0, 400, 22
EMPTY = -1


def is_free(level, place):
    """Whether a player's box meets nothing at a place, and the place is in the open."""
    head = level.models[0].heads
    leaf = level.leaf_at(place, head[0], MARGIN)
    if leaf is None or level.leaves[leaf].contents == SOLID:
        return False
    if level.clip_at(place, head[1], MARGIN) != EMPTY:
        return False
    return not any(all(a - 40 <= b <= c + 40 for a, b, c in zip(model.low, place, model.high)) for model in level.models[1:])


def spots(level, count, rng):
    """At most so many places, each in a leaf by chance."""
    found, open_leaves = [], [leaf for leaf in level.leaves[1:1 + level.models[0].numbered] if leaf.contents != SOLID]
    for _ in range(TRIES * count):
        leaf = rng.choice(open_leaves)
        place = tuple(round(rng.uniform(a, b)) for a, b in zip(leaf.low, leaf.high))
        if max(map(abs, place)) < 4096 and is_free(level, place):
            found.append(place)
            if len(found) == count:
                break
    return found


def told(places, looks=None):
    """The lines that tell an engine some places, each with a pitch and a yaw."""
    for number, (x, y, z) in enumerate(places):
        pitch, yaw = looks[number] if looks else (0, 0)
        yield f'alias place{number} "saved1 {x}; saved2 {y}; saved3 {z}; scratch1 {pitch}; scratch2 {yaw}; temp1 {number + 1}"'
        yield f'alias done{number} "saved4 {number + 1}"'
