"""A view of a level from a place, as SVG. What is hidden is left out by the tree itself: its leaves are met from the nearest on,
and of each surface there stays what the ones before it leave open. No corner is rounded until it is drawn."""

from collections import Counter
from fractions import Fraction
from math import ceil, floor
from typing import NamedTuple
from xml.sax.saxutils import escape

from beams import COVERED, OPEN, Beam, through
import colours
import corners
from eyes import SPAN, nearest_first
from points import decimal

# walls are ruled at each multiple of this, where the lines stand so far apart in the picture
RULED, APART = 64, 14
# in units of the picture: its width and height, the rim around it, a line of text, a letter in it, and the gap between items
WIDE, HIGH, RIM, LINE, LETTER, GAP = 800, 600, 16, 26, 7.6, 22
STYLE = """<style>
text { font-family: sans-serif; fill: #111111 }
.surface { stroke-width: 0.8; stroke-linejoin: round }
.rule { stroke: #000000; stroke-opacity: 0.2; stroke-width: 0.8; fill: none }
.hidden { stroke: #ff5060; stroke-width: 1.6; stroke-dasharray: 3 4; fill: none }
.end { stroke: #000000; stroke-opacity: 0.45; stroke-width: 1; fill: none }
.below { stroke: #ffffff; stroke-width: 7; fill: none; stroke-linecap: round }
.trail { stroke: #c00018; stroke-width: 4; fill: none; stroke-linecap: round }
.mark { stroke: #ffffff; stroke-width: 2; fill: #a3006b }
</style>
"""


class Part(NamedTuple):
    """What is seen of a surface: its leaf, its kind, the surface, and polygons."""
    leaf: int
    kind: str
    surface: tuple
    polygons: list


def frame(eye):
    """The planes through the eye and the sides of the picture, with what it shows to their front."""
    return eye.frame(Fraction(HIGH, WIDE))


def look(tree, eye, beam, shown, pieces, covers):
    """What is seen in a beam of the surfaces of some leaves, from the nearest on, and of the pieces of a line, each of which is given
    with the leaf in which it lies: its ends. A test says of which kinds surfaces cover what is behind them."""
    found, ends = [], []
    for leaf in nearest_first(tree, eye.corner):
        if beam.state == COVERED:
            break
        for piece in pieces.get(leaf, ()):
            ends += [part for _, part in beam.open_parts(piece)]
        for surface in shown.get(leaf, ()):
            kind = colours.kind(tree.leaves[leaf].contents, surface.beyond)
            if kind and corners.value(surface.plane, eye.corner) > 0:
                polygons = beam.put(eye.corner, surface.polygon, covers(kind))
                found += [Part(leaf, kind, surface, polygons)] if polygons else []
    return found, ends


def line_pieces(eye, line, trail):
    """The pieces of a leak line before the eye, by the leaf in which each lies."""
    pieces = {}
    for at, ends in enumerate(zip(line, line[1:])):
        piece, _ = corners.split([corners.corner(end) for end in ends], eye.near)
        if piece:
            pieces.setdefault(trail[(at + 1) // 2], []).append(piece)
    return pieces


class Picture:
    """Where things stand in the picture, and what is drawn: surfaces, others that a row leaves out, a leak line, and a place that is
    marked. What a row leaves out hides nothing that it holds: it is drawn where this leaves room, and nothing is seen through it."""

    def __init__(self, tree, eye, shown, line=None, trail=(), left_out=None):
        self.tree, self.eye, self.mark = tree, eye, None
        self.pieces = line_pieces(eye, line, trail) if line else {}
        beam = Beam()
        beam.narrow(frame(eye), OPEN, COVERED)
        self.parts, self.ends = look(tree, eye, beam, shown, self.pieces, lambda kind: colours.KINDS[kind][1] == 1)
        self.unseen, _ = look(tree, eye, beam, left_out or {}, {}, lambda kind: True)

    def at(self, corner):
        """Where a corner stands."""
        right, up = self.eye.at(corner)
        scale = WIDE / 2 / float(SPAN)
        return RIM + WIDE / 2 + scale * right, RIM + LINE + HIGH / 2 - scale * up

    def width(self, corner):
        """How wide in the picture is what stands by a corner, is as wide as rules are apart, and faces the eye."""
        return WIDE / 2 * RULED / self.eye.far(corner)

    def path(self, polygon):
        """The path along some corners, without corners that are drawn at one place twice."""
        places = [f"{x:.1f},{y:.1f}" for x, y in map(self.at, polygon)]
        return "M" + "L".join(place for at, place in enumerate(places) if at == 0 or place != places[at - 1])


def drawn_parts(picture):
    """The surfaces, from the farthest on, those that a row leaves out below. A browser shows what each is under the pointer."""
    for part in reversed(picture.unseen):
        yield drawn_part(picture, part, colours.unseen(part.surface.plane), 1, ", not in the row")
    for part in reversed(picture.parts):
        yield drawn_part(picture, part, colours.colour(part.kind, part.surface.plane, part.surface.texture()), colours.KINDS[part.kind][1])
        rules = "".join(picture.path(ends) for polygon in part.polygons for ends in rules_of(picture, part, polygon))
        if rules:
            yield f'<path class="rule" d="{rules}"/>\n'
        ends = "".join(picture.path(side) for polygon in part.polygons for side in ends_in(picture.eye, part.surface, polygon))
        if ends:
            yield f'<path class="end" d="{ends}"/>\n'


def drawn_part(picture, part, colour, share, rest=""):
    """A surface with its colour, and how much of it is seen."""
    colour = colours.hexadecimal(colour)
    fill = f'fill="#{colour}" ' + (f'stroke="#{colour}"' if share == 1 else f'fill-opacity="{share}"')
    title = f"leaf {part.leaf}, {picture.tree.leaves[part.leaf].contents}, before {part.surface.beyond}{told_of(part.surface.owner)}{rest}"
    path = "".join(picture.path(polygon) + "Z" for polygon in part.polygons)
    return f'<path class="surface" {fill} d="{path}"><title>{escape(title)}</title></path>\n'


def told_of(owner):
    """What is said of the face of a brush to which a surface belongs, if it is known."""
    if owner is None:
        return ""
    return f", brush {owner.brush}, face {owner.face}" + (f", {owner.texture}" if owner.texture else "")


def ends_in(eye, surface, polygon):
    """The sides of a polygon, which is a part of a surface, at which the face of a brush ends."""
    rim = surface.polygon
    for at, is_end in enumerate(surface.owner.ends if surface.owner else ()):
        if is_end:
            plane = through(eye.corner, rim[at], rim[at + 1 - len(rim)])
            ends = [corner for corner in polygon if corners.value(plane, corner) == 0]
            if len(ends) > 1:
                yield ends


def rules_of(picture, part, polygon):
    """The lines that rule a polygon of a wall, across the two axes along which its plane's normal is shorter: their ends."""
    if part.kind != "wall":
        return
    across = max(range(3), key=lambda axis: abs(part.surface.plane[axis]))
    for axis in range(3):
        numbers = [Fraction(corner[axis], corner[3]) for corner in polygon]
        for at in range(floor(min(numbers) / RULED) + 1, ceil(max(numbers) / RULED)) if axis != across else ():
            plane = (*(int(axis == other) for other in range(3)), at * RULED)
            front, back = corners.split(polygon, plane)
            ends = [corner for corner in front if corners.value(plane, corner) == 0]
            if picture.width(ends[0]) > APART:
                yield ends


def drawn_line(picture):
    """The line: dotted where something stands before it."""
    hidden = "".join(picture.path(ends) for pieces in picture.pieces.values() for ends in pieces)
    seen = "".join(picture.path(ends) for ends in picture.ends)
    if hidden:
        yield f'<path class="hidden" d="{hidden}"/>\n'
    if seen:
        yield f'<path class="below" d="{seen}"/>\n<path class="trail" d="{seen}"/>\n'


def drawn_mark(picture):
    """The place that is marked, where it is before the eye."""
    corner = corners.corner(picture.mark) if picture.mark else None
    if corner and corners.value(picture.eye.near, corner) > 0:
        yield '<circle class="mark" cx="{:.1f}" cy="{:.1f}" r="7"/>\n'.format(*picture.at(corner))


def drawn_legend(picture):
    """What the colours mean that are there; of textures those with most parts, as far as there is room."""
    kinds = {part.kind for part in picture.parts if not part.surface.texture()}
    textures = Counter(part.surface.texture() for part in picture.parts if part.surface.texture())
    items = [(f'<rect y="-14" width="24" height="16" fill="#{colours.hexadecimal(shown)}" stroke="#55504a"/>', name)
             for name, (shown, _) in colours.KINDS.items() if name in kinds]
    if picture.unseen:
        items.append((f'<rect y="-14" width="24" height="16" fill="#{colours.hexadecimal(colours.UNSEEN)}" stroke="#55504a"/>',
                      "not in the row"))
    if picture.pieces:
        items.append(('<path class="trail" d="M0,-5H24"/>', "leak line, dotted where it is hidden"))
    items += [('<circle class="mark" cx="12" cy="-6" r="7"/>', "the place whose row is shown") for _ in drawn_mark(picture)]
    items += [(f'<rect y="-14" width="24" height="16" fill="#{colours.hexadecimal(colours.of_texture(name))}" stroke="#55504a"/>', name)
              for name, _ in textures.most_common()]
    x = RIM
    for sign, words in items:
        wide = 32 + LETTER * len(words)
        if x + wide > WIDE and words in textures:
            break
        yield f'<g transform="translate({x:.1f},{RIM + LINE + HIGH + LINE})">{sign}<text x="32" font-size="13">{escape(words)}</text></g>\n'
        x += wide + GAP


def drawn(picture, title):
    """The whole picture, as the text of an SVG file."""
    frame = f'x="{RIM}" y="{RIM + LINE}" width="{WIDE}" height="{HIGH}"'
    wide, high = WIDE + 2 * RIM, HIGH + 2 * LINE + 2 * RIM
    return "".join((
        f'<svg xmlns="http://www.w3.org/2000/svg" viewBox="0 0 {wide} {high}" width="{wide}" height="{high}">\n', STYLE,
        f'<clipPath id="frame"><rect {frame}/></clipPath>\n<rect width="100%" height="100%" fill="#ffffff"/>\n',
        f'<text x="{RIM}" y="{RIM + 12}" font-size="14">{escape(title)}</text>\n',
        f'<g clip-path="url(#frame)">\n<rect {frame} fill="#{colours.hexadecimal(colours.GROUND)}"/>\n',
        *drawn_parts(picture), *drawn_line(picture), *drawn_mark(picture),
        f'</g>\n<rect {frame} fill="none" stroke="#111111"/>\n', *drawn_legend(picture), "</svg>\n"))


def titled(name, place, aim, row=None):
    """What stands above the picture; of a row its number, and what is counted of it."""
    rest = "" if row is None else ", row {} {}".format(*row)
    return f"{name}, from {written(place)} to {written(aim)}{rest}"


def written(place):
    """A place with six decimals."""
    return ",".join(decimal(Fraction(number), 6) for number in place)
