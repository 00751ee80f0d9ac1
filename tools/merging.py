"""Joins the parts of a face that lie side by side, where together they are convex."""

from drawn_faces import Drawn


def merged(found):
    """Parts of faces, of which those of one face at one node are joined, in the order of the nodes."""
    groups = {}
    for part in found:
        groups.setdefault((part.node, part.is_behind, id(part.face)), []).append(part)
    parts = []
    for group in groups.values():
        first, normal = group[0], group[0].face.plane[:3]
        # a liquid is seen from inside too, and then the other way round
        seen = normal if is_outward(first) else tuple(-number for number in normal)
        polygons = joined([part.polygon for part in group], seen) if len(group) > 1 else [first.polygon]
        parts += [Drawn(first.node, first.is_behind, first.face, polygon) for polygon in polygons]
    return sorted(parts, key=lambda part: part.node)


def is_outward(part):
    """Whether a part goes round with the clock as seen from outside of its brush."""
    return turn(*part.polygon[:3], part.face.plane[:3]) < 0


def joined(polygons, normal):
    """Convex polygons that go round with the clock as seen from where a normal points, joined where that gives convex ones."""
    parts, edges = dict(enumerate(polygons)), {}
    for number, polygon in parts.items():
        edges.update({(polygon[at - 1], polygon[at]): number for at in range(len(polygon))})
    waiting = list(parts)
    while waiting:
        number = waiting.pop()
        other, whole = beside(parts, edges, number, normal) if number in parts else (None, None)
        if whole:
            del parts[other]
            parts[number] = whole
            edges.update({(whole[at - 1], whole[at]): number for at in range(len(whole))})
            waiting.append(number)
    return list(parts.values())


def beside(parts, edges, number, normal):
    """A polygon beside one of that number with which it is convex, and both together; or None twice."""
    polygon = parts[number]
    for at in range(len(polygon)):
        other = edges.get((polygon[at], polygon[at - 1]))
        # joined corners leave edges behind that are none any more
        if other in parts and other != number and polygon[at - 1] in parts[other]:
            whole = together(polygon[at:] + polygon[:at], parts[other], normal)
            if whole:
                return other, whole
    return None, None


def together(one, other, normal):
    """Two polygons that share the edge from the last to the first corner of one, as a convex one, or None."""
    at = other.index(one[-1])
    if other[at - 1] != one[0]:
        return None
    inner = (other[at:] + other[:at])[1:-1]
    turns = turn(one[-2], one[-1], inner[0], normal), turn(inner[-1], one[0], one[1], normal)
    if max(turns) > 0:
        return None
    return one[0 if turns[1] else 1:len(one) if turns[0] else -1] + inner


def turn(before, corner, after, normal):
    """Which way a border turns at a corner, as seen from where a normal points: below 0 with the clock, 0 not at all."""
    (a, b, c, d), (e, f, g, h), (i, j, k, w) = before, corner, after
    x, y, z = e * d - a * h, f * d - b * h, g * d - c * h
    p, q, r = i * h - e * w, j * h - f * w, k * h - g * w
    return normal[0] * (y * r - z * q) + normal[1] * (z * p - x * r) + normal[2] * (x * q - y * p)
