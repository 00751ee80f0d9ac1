#!/usr/bin/env python3
"""Prints a MAP text of about as many megabytes as the first word says, as level editors write them: a world and
doors, lamps and other entities with their pairs, brushes of six to twelve faces with a comment each, and numbers
with and without `.000`. The same words give the same text.

    bench/make_map.py MEGABYTES [standard | valve | mixed | eighths | braces | origins] [crlf]

`mixed`, which is what stands for no word, has a brush of either form in turn by chance, and so has `eighths`, half of whose
coordinates have decimals; `braces` has entities without pairs and brushes alone. `origins`, of whatever length is asked for, has a million pairs in one entity, of which the
last 100,000 are origins. `crlf` ends lines with the bytes 13 and 10."""

from fractions import Fraction
from random import Random
import sys

# how far from 0 a coordinate can be
EXTENT = 32768
TEXTURES = "base_wall1 city2_3 sky1 clip *lava1 +0button trigger rock4_2 metal5_4 wood1_5 {grate1 ground1_6 a/b".split()


def number(random, value):
    """A number as it may be written, with three decimals at most."""
    if value % 1:
        whole, rest = divmod(abs(value), 1)
        return f"{'-' if value < 0 else ''}{whole}.{int(1000 * rest):03}".rstrip("0")
    return f"{value}.000" if random.random() < 0.08 else str(value)


def mapping(random, valve):
    """The words behind the texture."""
    offsets = [random.randrange(-512, 512) for _ in range(2)]
    scales = " ".join(random.choice(["1", "1", "0.5", "-1", "1.25"]) for _ in range(2))
    turn = random.choice([0, 0, 0, 45, 90])
    if not valve:
        return f"{offsets[0]} {offsets[1]} {turn} {scales}"
    axes = random.choice([("1 0 0", "0 -1 0"), ("0 1 0", "0 0 -1"), ("1 0 0", "0 0 -1"),
                          ("0.707107 0.707107 0", "0 0 -1")])
    return f"[ {axes[0]} {offsets[0]} ] [ {axes[1]} {offsets[1]} ] {turn} {scales}"


def face(random, low, high, form, valve):
    """Three points that are not on one line, a texture and a mapping."""
    points = []
    for i in range(3):
        point = [random.randrange(a, b) for a, b in zip(low, high)]
        if form == "eighths":
            point = [number + Fraction(random.choice((0, random.randrange(8))), 8) for number in point]
        point[i] = low[i] if i != 1 else high[i] + 1
        points.append(point)
    (a, b, c) = points
    u, v = ([p[i] - b[i] for i in range(3)] for p in (a, c))
    if not any(u[i] * v[j] != u[j] * v[i] for i, j in ((0, 1), (1, 2), (2, 0))):
        return face(random, low, high, form, valve)
    words = " ".join(f"( {' '.join(number(random, x) for x in point)} )" for point in points)
    return f"{words} {random.choice(TEXTURES)} {mapping(random, valve)}"


def brush(random, number_of_it, form):
    """A brush of six to twelve faces."""
    valve = form == "valve" or form in ("mixed", "eighths") and random.random() < 0.5
    low = [16 * random.randrange(-250, 230) for _ in range(3)]
    high = [a + 16 * random.randrange(1, 16) for a in low]
    count = random.choice([6, 6, 6, 6, 7, 8, 9, 10, 12])
    yield f"// brush {number_of_it}"
    yield "{"
    for _ in range(count):
        yield face(random, low, high, form, valve)
    yield "}"


def pairs(random, number_of_it):
    """The pairs of an entity that is not the world."""
    yield f'"classname" "{random.choice(["light", "func_door", "info_player_start", "monster_ogre", "func_wall"])}"'
    yield f'"origin" "{" ".join(str(16 * random.randrange(-200, 200)) for _ in range(3))}"'
    if random.random() < 0.5:
        yield f'"targetname" "t{number_of_it}"'
    if random.random() < 0.2:
        yield f'"message" "You need the {random.choice(["gold", "silver"])} key to open door {number_of_it}"'
    if random.random() < 0.5:
        yield f'"light" "{random.randrange(50, 400)}"'


def lines(random, size, form):
    """The lines of a text of at least so many bytes."""
    written = 0
    yield "// Game: Quake"
    yield f"// Format: {'Valve' if form == 'valve' else 'Standard'}"
    brushes, entity = 0, 0
    while written < size:
        yield f"// entity {entity}"
        yield "{"
        if entity == 0:
            yield '"classname" "worldspawn"'
            yield '"message" "A text to be read and printed"'
            yield '"wad" "gfx/base.wad;gfx/city.wad;gfx/metal.wad"'
        else:
            yield from pairs(random, entity)
        # the world has half of the text, a door one to three brushes, and a lamp none
        count = random.choice([0, 0, 1, 2, 3])
        while (written < size // 2) if entity == 0 else count > 0:
            for line in brush(random, brushes, form):
                written += len(line) + 1
                yield line
            brushes += 1
            count -= 1
        yield "}"
        written += 60
        entity += 1


def braces(size):
    """The lines of entities without pairs and brushes."""
    for _ in range(size // 4):
        yield "{ }"


def origins():
    """The lines of a world, and of an entity with a million pairs, of which the last 100,000 are origins."""
    yield "{ }"
    yield "{"
    for i in range(900_000):
        yield f'"key{i}" "value"'
    for i in range(100_000):
        yield f'"origin" "{i % EXTENT} 0 0"'
    yield "}"


def main():
    megabytes = int(sys.argv[1])
    forms = ("standard", "valve", "mixed", "eighths", "braces", "origins")
    form = next((word for word in sys.argv[2:] if word in forms), "mixed")
    size = megabytes * 1_000_000
    end = "\r\n" if "crlf" in sys.argv[2:] else "\n"
    out = open(sys.stdout.fileno(), "w", newline="")
    text = braces(size) if form == "braces" else origins() if form == "origins" else lines(Random(20), size, form)
    for line in text:
        out.write(line + end)


main()
