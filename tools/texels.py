"""Cuts faces to the size that engines take, counted in texels, and mends where the corner of one face stands on an edge of another."""

from collections import defaultdict
from math import ceil, floor, gcd, lcm

import corners
from mapping import PLAIN

# engines count texels in sixteens, rounded outward
STEP = 16
# how far they may be off where they round, in texels
OFF = 1 / 64
# into how many parts a face is cut at most along a direction of its texture
MOST_PARTS = 64


def extent(polygon, way):
    """From which step to which other one a polygon reaches along a direction of its texture, as engines count: where they may round
    what stands between two steps to either, it counts to both."""
    a, b, c, offset = way.written
    places = [(a * x + b * y + c * z) / w + offset for x, y, z, w in polygon]
    off = 0 if way.is_plain and all(w in PLAIN for *_, w in polygon) else OFF
    return floor((min(places) - off) / STEP), ceil((max(places) + off) / STEP)


def is_too_fine(polygon, ways, most):
    """Whether a polygon would be cut into too many parts."""
    return any(high - low > MOST_PARTS * most // STEP for low, high in (extent(polygon, way) for way in ways))


def cut(polygon, ways, most):
    """The parts of a polygon, each of so many texels at most along both directions of its texture, and a step more."""
    parts, steps = [polygon], most // STEP + 1
    for way in ways:
        waiting, parts = parts, []
        while waiting:
            whole = waiting.pop()
            low, high = extent(whole, way)
            # between two steps, so that the place is rounded to the same ones everywhere
            before, behind = corners.split(whole, border(way, low + steps)) if high - low > steps else (whole, None)
            parts.append(behind if before and behind else whole)
            if before and behind:
                waiting.append(before)
    return parts


def border(way, step):
    """The plane half a step before a step along a direction, in whole numbers."""
    numbers = *way.parts[:3], STEP * step - STEP // 2 - way.parts[3]
    times = lcm(*(number.denominator for number in numbers))
    whole = [int(number * times) for number in numbers]
    common = gcd(*whole) or 1
    return tuple(number // common for number in whole)


def line_of(first, second):
    """The line through two corners, the same for each two on it: a direction and a moment in lowest terms; and the direction."""
    (a, b, c, d), (e, f, g, h) = first, second
    x, y, z = e * d - a * h, f * d - b * h, g * d - c * h
    common = gcd(x, y, z)
    if x < 0 or not x and (y < 0 or not y and z < 0):
        common = -common
    x, y, z = x // common, y // common, z // common
    moment = b * z - c * y, c * x - a * z, a * y - b * x
    divisor = gcd(d, *moment)
    return (x, y, z, d // divisor, *(number // divisor for number in moment)), common > 0


def joined(polygons):
    """The polygons with the corners of others that stand on their edges."""
    edges = [[line_of(polygon[at - 1], polygon[at]) for at in range(len(polygon))] for polygon in polygons]
    standing = defaultdict(set)
    for polygon, lines in zip(polygons, edges):
        for at, (line, _) in enumerate(lines):
            standing[line] |= {polygon[at - 1], polygon[at]}
    ordered = {line: sorted_along(line, points) for line, points in standing.items()}
    places = {line: {corner: at for at, corner in enumerate(points)} for line, points in ordered.items()}
    return [mended(polygon, lines, ordered, places) for polygon, lines in zip(polygons, edges)]


def sorted_along(line, points):
    """Corners on a line, in their order along it."""
    axis = next(axis for axis in range(3) if line[axis])
    if len(points) == 2:
        one, other = points
        return [one, other] if one[axis] * other[3] < other[axis] * one[3] else [other, one]
    common = lcm(*(point[3] for point in points))
    return sorted(points, key=lambda point: point[axis] * (common // point[3]))


def mended(polygon, lines, ordered, places):
    """A polygon with the corners that stand on its edges."""
    found = []
    for at, (line, is_along) in enumerate(lines):
        points, numbers = ordered[line], places[line]
        first, second = numbers[polygon[at - 1]], numbers[polygon[at]]
        found += points[first + 1:second + 1] if is_along else points[second:first][::-1]
    return begun_well(found, len(polygon))


def begun_well(polygon, count):
    """The polygon, turned so that engines, which draw it as a fan from its first corner, draw no part of it as a line where that
    can be; `count` corners of it were there before others were added."""
    if len(polygon) == count:
        return polygon
    corner = [line_of(polygon[at - 1], polygon[at])[0] != line_of(polygon[at], polygon[(at + 1) % len(polygon)])[0]
              for at in range(len(polygon))]
    for at in range(len(polygon)):
        if corner[(at + 1) % len(polygon)] and corner[at - 1]:
            return polygon[at:] + polygon[:at]
    return polygon
