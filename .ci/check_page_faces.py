#!/usr/bin/env python3
"""Holds the walls of a page of `tools/qmlook view` to the faces of its tree and to its map, which is that of the courtyard.

    .ci/check_page_faces.py PAGE TREE MAP

Each leaf has its pieces in place of its surfaces before rock, with the colour of the texture that the map gives; and the sides at which
faces of brushes end are those beyond which, on the plane, is no more of the brush. Where there is a browser, the page shows a wall in
the colour of its texture, and a dark line where a face ends."""

from fractions import Fraction
from pathlib import Path
import sys

sys.path.insert(0, str(Path(__file__).resolve().parent.parent / "tools"))

from check_pages import AIM, NEAR, PLACE, TARGETS, level_of, list_of, on_page, opened, spelled
from check_views import seen_of
import colours
import corners
from eyes import Eye
import map_reader
import treefile

# so far beyond a side one looks for the brush
STEP = 1 / 64
# a place, seen from PLACE, at which the faces of two brushes end on one plane: two that make the rim of the pool
END = (144, 72, 40)


def is_end(brush, normal, first, second):
    """Whether a brush ends at a side of a polygon that goes round against the clock on a plane with this normal."""
    way = [b - a for a, b in zip(first, second)]
    out = [way[1] * normal[2] - way[2] * normal[1], way[2] * normal[0] - way[0] * normal[2], way[0] * normal[1] - way[1] * normal[0]]
    length = sum(part * part for part in out) ** 0.5
    middle = [(a + b) / 2 + STEP * part / length for a, b, part in zip(first, second, out)]
    return any(map_reader.dot(face.normal, middle) > face.distance + STEP / 1000 for face in brush.faces)


def due(tree, brushes):
    """What is due of each surface: its corners, its colour, and which of its sides are ends."""
    seen, pieces = seen_of(tree), tree.faces()
    for leaf, what in enumerate(tree.leaves):
        for surface in seen[leaf].surfaces if leaf in seen else ():
            kind = colours.kind(what.contents, surface.beyond)
            if kind and surface.owner is None:
                yield list(map(corners.rounded, surface.polygon)), colours.colour(kind, surface.plane), [0] * len(surface.polygon)
        for piece in pieces:
            if piece.leaf == leaf:
                brush, polygon = brushes[piece.brush], [tuple(map(float, tree.corner(corner))) for corner in reversed(piece.corners)]
                face = brush.faces[piece.face]
                yield (polygon, colours.colour("wall", face.normal, face.texture),
                       [int(is_end(brush, face.normal, *side)) for side in zip(polygon, polygon[1:] + polygon[:1])])


def faults_of_text(level, wanted):
    """What is wrong with what a page holds."""
    kept, rounds, tints = list_of("f", level["corners"]), iter(list_of("I", level["rounds"])), iter(list_of("B", level["colours"]))
    found = []
    for length in list_of("H", level["lengths"]):
        places = [tuple(kept[3 * at:3 * at + 3]) for at in (next(rounds) for _ in range(length))]
        found.append((places, (next(tints), next(tints), next(tints))))
    ends = iter(list_of("B", level["ends"]))
    if len(found) != len(wanted):
        yield f"it has {len(found)} surfaces, and should have {len(wanted)}"
    for number, ((places, tint), (polygon, colour, sides)) in enumerate(zip(found, wanted)):
        its = [next(ends) for _ in places]
        if len(places) != len(polygon) or any(abs(a - b) > 0.01 for one, other in zip(places, polygon) for a, b in zip(one, other)):
            yield f"its surface {number} has the corners {places}, and should have {polygon}"
        elif tint != colour or its != sides:
            yield f"its surface {number} has the colour {tint} and the ends {its}, and should have {colour} and {sides}"


def faults_of_pixels(browser, tree, brushes):
    """What is wrong with what the page draws."""
    eye, target = Eye(PLACE, AIM), TARGETS["wall"]
    rows, step = browser.pixels(f"from={spelled(PLACE)}&to={spelled(AIM)}&keys=HM")
    x, y = on_page(eye, target, len(rows[0]) // step, len(rows))
    spans = tree.spans(PLACE, [a + 2 * (b - a) for a, b in zip(PLACE, target)])
    part = next(before.to for before, span in zip(spans, spans[1:]) if tree.leaves[span.leaf].contents == "solid")
    met = [a + 2 * part * (b - a) for a, b in zip(PLACE, target)]
    owners = [brushes[piece.brush].faces[piece.face] for piece in tree.faces() if holds(tree, piece, met)]
    wanted = {colours.colour("wall", face.normal, face.texture) for face in owners}
    found = tuple(rows[y][step * x:step * x + 3])
    if len(wanted) != 1 or any(abs(a - b) > NEAR for colour in wanted for a, b in zip(found, colour)):
        yield f"at {x},{y} of the page stands {found}, and the wall has the colours {wanted}"
    x, y = on_page(eye, END, len(rows[0]) // step, len(rows))
    row = [sum(rows[y][step * at:step * at + 3]) for at in range(x - 6, x + 7)]
    if min(row) > 0.7 * min(row[0], row[-1]):
        yield f"about {x},{y} of the page is no dark line: {row}"


def holds(tree, piece, place):
    """Whether a place is in a piece."""
    points = [tree.corner(corner) for corner in piece.corners]
    plane = tree.named_plane(piece.corners[0][0])
    if treefile.value(plane, place) != 0:
        return False
    sides = []
    for first, second in zip(points, points[1:] + points[:1]):
        way, to = ([Fraction(b) - a for a, b in zip(first, end)] for end in (second, place))
        sides.append(sum(n * part for n, part in zip(plane, treefile.crossed(way, to))))
    return all(side >= 0 for side in sides) or all(side <= 0 for side in sides)


def main():
    page, tree = Path(sys.argv[1]), treefile.load(sys.argv[2])
    brushes = [brush for brush in map_reader.load(sys.argv[3])[0].brushes if brush.contents != "clip"]
    found = list(faults_of_text(level_of(page.read_text(encoding="ascii")), list(due(tree, brushes))))
    found += opened(page, lambda browser: faults_of_pixels(browser, tree, brushes))
    sys.exit("\n".join(found[:20]) or 0)


main()
