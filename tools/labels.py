"""Numbers written into the pieces of a picture: a label stands where its box lies inside its own convex piece, so no two
labels overlap; where it fits nowhere it is left out."""

from polygons import part_in_front

SIZES = (15, 12, 9)
# how wide a digit is, and how high a line, for each unit of the letters' size
WIDE, HIGH = 0.66, 1.0


def place(text, corners, lines):
    """The middle and the size of a label inside a convex piece, off some lines where that can be, or None."""
    middle, lines = centre(corners), near(lines, corners)
    rim = corners + [mean(side) for side in sides(corners)]
    aside = [((middle[0] + x) / 2, (middle[1] + y) / 2) for x, y in rim]
    places = [(x, y, size) for size in SIZES for x, y in (middle, mean(corners), *aside)]
    fitting = [found for found in places if holds(corners, box(text, *found))]
    clear = (found for found in fitting if not any(crosses(line, box(text, *found)) for line in lines))
    return next(clear, fitting[0] if fitting else None)


def near(lines, corners):
    """Of some lines those whose boxes meet that of some corners."""
    spans = [(min(numbers), max(numbers)) for numbers in zip(*corners)]
    return [line for line in lines
            if all(min(ends) <= high and max(ends) >= low for ends, (low, high) in zip(zip(*line), spans))]


def crosses(line, corners):
    """Whether a line from one point to another meets a box."""
    (west, north), _, (east, south), _ = corners
    sides = [(1, 0, 0, west), (-1, 0, 0, -east), (0, 1, 0, north), (0, -1, 0, -south)]
    return part_in_front((*line[0], 0), (*line[1], 0), sides) is not None


def box(text, x, y, size):
    """The corners of the box that a label takes."""
    half_wide, half_high = WIDE * size * len(text) / 2, HIGH * size / 2
    return [(x + a * half_wide, y + b * half_high) for a, b in ((-1, -1), (1, -1), (1, 1), (-1, 1))]


def overlap(one, other):
    """Whether two boxes have points in common."""
    spans = [[(min(numbers), max(numbers)) for numbers in zip(*corners)] for corners in (one, other)]
    return all(low < top and bottom < high for (low, high), (bottom, top) in zip(*spans))


def mean(corners):
    """The mean of the corners."""
    return sum(x for x, _ in corners) / len(corners), sum(y for _, y in corners) / len(corners)


def sides(corners):
    """Each corner with the next one."""
    return zip(corners, corners[1:] + corners[:1])


def cross(first, second, point):
    """Twice the area of a triangle, with its sign."""
    return (second[0] - first[0]) * (point[1] - first[1]) - (second[1] - first[1]) * (point[0] - first[0])


def centre(corners):
    """The centre of the area."""
    first, area, x, y = corners[0], 0, 0, 0
    for second, third in zip(corners[1:], corners[2:]):
        part = cross(first, second, third)
        area += part
        x += part * (first[0] + second[0] + third[0]) / 3
        y += part * (first[1] + second[1] + third[1]) / 3
    return (x / area, y / area) if area else mean(corners)


def holds(corners, points):
    """Whether a convex piece holds all of some points, whichever way it goes round."""
    values = [cross(first, second, point) for first, second in sides(corners) for point in points]
    return min(values) >= 0 or max(values) <= 0
