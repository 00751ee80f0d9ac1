"""The page of a level: one HTML file in which you walk through it, with all that the page needs inside.

What is written of the level for the scripts, numbers as bytes in base64, little-endian:
planes (four doubles each), nodes (plane, front, back: 4 bytes, signed), leaves (a byte: the place of what fills it in `FILLS`),
middles (three floats each); corners (three floats each); of each surface, leaf by leaf, how many corners it has (2 bytes), its
corners by their numbers (4 bytes each), its kind and its red, green and blue (a byte each); of each of these corners a byte that is 1
if the face of a brush ends on the side to the next one, or null if that is not known; of each leaf how many surfaces
it has, how many leaves it touches that hold other contents, and these (4 bytes each); and the rows, bit by bit. Beside these
stand the bound of the world; the brush models, each with what is said of it, its box, the numbers of the leaves that it touches, and
how many surfaces it has, which follow those of the leaves; the entities of a map that stand at a place, each with its kind, what is said of it, its class and its
place; and, each null where it is not there or not said, the planes, nodes and leaves of clip hull 1 (a byte that is 1 where a leaf is
solid), the portals of a listing, the points of a leak line, where you begin, and where you look."""

from base64 import b64encode
from html import escape
import json
from math import cos, radians, sin
from pathlib import Path
from struct import pack

from bodies import middle
import colours
from corners import rounded
from origins import told_of
from patterns import FILLED, kind as fill_of
import surfaces as borders

FOLDER = Path(__file__).resolve().parent / "web"
SCRIPTS = ["level.js", "walking.js", "colliding.js", "models.js", "drawing.js", "marks.js", "aiming.js", "entities.js", "plan.js", "main.js"]
FILLS = ["empty", "solid", "water", "slime", "lava", "sky", FILLED]
KINDS = list(colours.KINDS)
# how far ahead of a place the point is at which you look
AHEAD = 64


def spelled(layout, numbers):
    """Numbers as bytes, in base64."""
    numbers = list(numbers)
    return b64encode(pack(f"<{len(numbers)}{layout}", *numbers)).decode()


def places(points):
    """Some points as they are drawn."""
    return [[float(number) for number in point] for point in points]


def flat(points):
    """The coordinates of some points, one after another."""
    return [float(number) for point in points for number in point]


def level_of(tree, seen, shapes):
    """The tree, its surfaces, behind them those of its models, and its rows, as the page reads them."""
    everyone = [seen.get(leaf) for leaf in range(len(tree.leaves))]
    drawn = [surfaces_drawn(tree, leaf, what, colours.kind) for leaf, what in enumerate(everyone)]
    surfaces = [surface for those in (*drawn, *shapes) for surface in those]
    numbers = {}
    rounds = [numbers.setdefault(corner, len(numbers)) for surface, _ in surfaces for corner in surface.polygon]
    return {
        "bound": tree.bound,
        **nodes_of(tree),
        "leaves": spelled("B", (FILLS.index(fill_of(leaf)) for leaf in tree.leaves)),
        "middles": spelled("f", flat(middle(what.faces) if what else (0, 0, 0) for what in everyone)),
        "corners": spelled("f", flat(map(rounded, numbers))),
        "rounds": spelled("I", rounds),
        "lengths": spelled("H", (len(surface.polygon) for surface, _ in surfaces)),
        "kinds": spelled("B", (KINDS.index(name) for _, name in surfaces)),
        "colours": spelled("B", (part for surface, name in surfaces for part in colours.colour(name, surface.plane, surface.texture()))),
        "ends": ends_of([surface for surface, _ in surfaces]),
        "surfaces": spelled("I", map(len, drawn)),
        "touches": spelled("I", (len(what.touched) if what else 0 for what in everyone)),
        "touched": spelled("I", (other for what in everyone if what for other in sorted(what.touched))),
        "rows": None if tree.rows is None else b64encode(b"".join(tree.rows)).decode(),
        "kind": [{"name": name, "part": part} for name, (_, part) in colours.KINDS.items()],
        "ground": colours.GROUND,
    }


def ends_of(surfaces):
    """Of each corner of each surface whether a face of a brush ends on the side to the next one; None if that is known of no surface."""
    if not any(surface.texture() for surface in surfaces):
        return None
    return spelled("B", (at for surface in surfaces for at in (surface.owner.ends if surface.texture() else (0,) * len(surface.polygon))))


def nodes_of(tree):
    """The planes and the nodes of a tree."""
    return {"planes": spelled("d", (number for plane in tree.planes for number in plane)),
            "nodes": spelled("i", (number for node in tree.nodes for number in node))}


def hull_of(hull):
    """The tree of a clip hull."""
    return {**nodes_of(hull), "solid": spelled("B", (leaf.contents == "solid" for leaf in hull.leaves))}


def surfaces_drawn(tree, leaf, what, kind):
    """The surfaces of a leaf that are drawn, each with its kind."""
    own = tree.leaves[leaf].contents
    named = [(surface, kind(own, surface.beyond)) for surface in what.surfaces] if what else []
    return [(surface, name) for surface, name in named if name]


def shape_of(model):
    """The surfaces of a brush model that are drawn, each with its kind: where what it holds ends, seen from the leaves around it."""
    found = borders.seen(model.tree)
    return [surface for leaf in sorted(found) for surface in surfaces_drawn(model.tree, leaf, found[leaf], colours.kind_of_model)]


def models_of(models, shapes, entities):
    """The brush models, as the page reads them; `entities` are those of a map, of which there may be none."""
    return [{"told": told_of(model, entities), "box": [*model.low, *model.high], "leaves": model.leaves, "surfaces": len(shape)}
            for model, shape in zip(models, shapes)]


def portals_of(portals):
    """The portals of a listing: of each its two leaves, by their numbers, how many corners it has, and these as floats."""
    return {
        "sides": spelled("I", (number for front, back, _ in portals for number in (front, back))),
        "lengths": spelled("H", (len(corners) for _, _, corners in portals)),
        "corners": spelled("f", flat(corner for _, _, corners in portals for corner in corners)),
    }


def entities_of(marks):
    """The entities of a map, as the page reads them."""
    return [{"kind": mark.kind(), "told": mark.told(), "name": mark.name, "at": places([mark.place])[0]} for mark in marks]


def ahead(place, angle):
    """A point that is straight ahead of a place if you look at an angle, in degrees."""
    x, y, z = place
    return float(x) + AHEAD * cos(radians(angle)), float(y) + AHEAD * sin(radians(angle)), z


def page(name, level):
    """The text of the page, part by part."""
    parts = {
        "TITLE": escape(name),
        "DATA": json.dumps({"name": name, **level}).replace("<", "\\u003c"),
        "SCRIPT": "\n".join((FOLDER / script).read_text(encoding="ascii") for script in SCRIPTS),
    }
    rest = (FOLDER / "page.html").read_text(encoding="ascii")
    for place, part in parts.items():
        before, _, rest = rest.partition(place)
        yield before
        yield part
    yield rest
