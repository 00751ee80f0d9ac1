#!/usr/bin/env python3
"""Prints a MAP text of a closed room with brushes of slanted faces in it, solid ones and such of water, slime, lava and sky.

    .ci/made_levels.py SEED COUNT

The same words give the same text. An entity stands in the middle, which is kept free."""

import random
import sys

HALF, WALL, FREE = 512, 16, 96
CONTENTS = ["brick", "brick", "brick", "*water1", "*slime1", "*lava1", "sky1"]


def face(normal, distance):
    """Three points of the plane across a direction of whole numbers, near the one at a distance along it, going round so that
    the brush lies behind."""
    axis = max(range(3), key=lambda at: abs(normal[at]))
    points = []
    for one, other in ((0, 0), (0, 64), (64, 0)):
        point = [0, 0, 0]
        point[(axis + 1) % 3], point[(axis + 2) % 3] = one * normal[axis], other * normal[axis]
        rest = distance - sum(a * b for a, b in zip(normal, point))
        point[axis] = rest // normal[axis]
        points.append(point)
    if normal[axis] < 0:
        points[1:] = points[:0:-1]
    return " ".join("( " + " ".join(map(str, point)) + " )" for point in points)


def box(low, high, texture):
    """A brush from one corner to the other."""
    sides = [(tuple(int(at == axis) * sign for at in range(3)), sign * bounds[axis])
             for axis in range(3) for sign, bounds in ((1, high), (-1, low))]
    return brush(sides, texture)


def brush(sides, texture):
    """A brush behind planes, each a direction and a distance."""
    return "{\n" + "".join(f"{face(normal, distance)} {texture} 0 0 0 1 1\n" for normal, distance in sides) + "}\n"


def slanted(rng):
    """A brush by chance: a box some of whose sides are slanted."""
    while True:
        middle = [rng.randrange(-HALF + 64, HALF - 64, 8) for _ in range(3)]
        if max(map(abs, middle)) > 2 * FREE:
            break
    sides = []
    for axis in range(3):
        for sign in (1, -1):
            normal = [rng.choice((0, 0, 0, -1, 1)) for _ in range(3)]
            normal[axis] = 2 * sign
            sides.append((tuple(normal), sum(a * b for a, b in zip(normal, middle)) + 2 * rng.randrange(24, FREE, 8)))
    return brush(sides, rng.choice(CONTENTS))


def main():
    rng, out, inner = random.Random(int(sys.argv[1])), HALF + WALL, HALF
    print('{\n"classname" "worldspawn"')
    for axis in range(3):
        for sign in (1, -1):
            low, high = [-out] * 3, [out] * 3
            (low if sign > 0 else high)[axis] = sign * inner
            print(box(low, high, "brick"), end="")
    for _ in range(int(sys.argv[2])):
        print(slanted(rng), end="")
    print('}\n{\n"classname" "info_player_start"\n"origin" "0 0 0"\n}')


main()
