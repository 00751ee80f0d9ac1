"""The leak line: points along the trail of a leak, the middle of each leaf and of each contact between two."""

from fractions import Fraction

from cells import NoContact
from polygons import middle, part_in_front

# how many decimals a coordinate has, and at most where the leaves are thin
PLACES, MOST_PLACES = 6, 12


def leak_line(cells, trail):
    """The points of the line, exactly: the middle of a leaf, of its contact with the next one, and so on, and last the
    middle of the nearest part of the cube's wall that the last leaf touches."""
    line = [cells.middle(trail[0])]
    for one, other in zip(trail, trail[1:]):
        line += [middle(cells.contact(one, other)), cells.middle(other)]
    ends = [middle(face) for face in cells.outside_contacts(trail[-1])]
    line.append(min(ends, key=lambda end: sum((a - b) ** 2 for a, b in zip(end, line[-1]))))
    return line


def rounded(point, places):
    """The point with each coordinate rounded to so many decimals."""
    return tuple(Fraction(round(number * 10 ** places), 10 ** places) for number in point)


def stays(line, trail, borders):
    """Whether each piece of a line, from a middle to a contact or on from there, is inside the two leaves of the contact."""
    for at, (first, second) in enumerate(zip(line, line[1:])):
        near = trail[at // 2:at // 2 + 2]
        parts = sorted(part for part in (part_in_front(first, second, borders[leaf]) for leaf in near) if part)
        reached = 0
        for low, high in parts:
            if low <= reached:
                reached = max(reached, high)
        if reached < 1:
            return False
    return True


def printed(cells, trail):
    """The text of a point file: a point a line, rounded so that each piece of the line is still inside the leaves."""
    line = leak_line(cells, trail)
    borders = {leaf: cells.borders(leaf) + cells.walls for leaf in trail}
    for places in range(PLACES, MOST_PLACES + 1):
        points = [rounded(point, places) for point in line]
        if stays(points, trail, borders):
            return "".join(" ".join(decimal(number, places) for number in point) + "\n" for point in points)
    raise NoContact(f"the leaves of the trail are too thin for points of {MOST_PLACES} decimals")


def decimal(number, places):
    """A fraction with so many decimals, without the zeros at its end."""
    whole = round(number * 10 ** places)
    digits = f"{abs(whole):0{places + 1}d}"
    text = f"{digits[:-places]}.{digits[-places:]}".rstrip("0").rstrip(".")
    return "-" + text if whole < 0 else text
