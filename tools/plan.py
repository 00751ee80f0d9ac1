"""The picture of a slice through a tree: its pieces, what a row holds, a clip hull, portals, the trail of a leak, and the spans of a
segment, as SVG."""

from fractions import Fraction
from math import cos, hypot, radians, sin
from xml.sax.saxutils import escape

import labels
from origins import LIGHT, OTHER, START, told_of
import patterns
from points import decimal
from polygons import between, crossing, in_front
from slices import is_shown, pieces

# in units of the picture: the longer side of what is shown and the least width of what is written; the rim around it; a
# line of the legend, a letter in it, and the gap between two items
LONGEST, LEAST, RIM, LINE, LETTER, GAP = 800, 460, 16, 26, 7.6, 22
STYLE = """<style>
text { font-family: sans-serif; fill: #111111 }
.label { text-anchor: middle; paint-order: stroke; stroke: #ffffff; stroke-width: 3px }
.piece { stroke: #55504a; stroke-width: 0.6 }
.own { stroke: #a3006b; stroke-width: 4; fill: none }
.portal { stroke: #006b4f; stroke-width: 4 }
.within { stroke: #ffffff; stroke-width: 1.6; stroke-dasharray: 3 3 }
.below { stroke: #ffffff; stroke-width: 6; fill: none; stroke-linejoin: round }
.trail { stroke: #c00018; stroke-width: 3; fill: none; stroke-linejoin: round }
.stop { stroke: #c00018; stroke-width: 2; fill: #ffffff }
.start { stroke: #ffffff; stroke-width: 2; fill: #c00018 }
</style>
"""
MODEL_STYLE = """<style>
.model { stroke: #7a3d0c; stroke-width: 1.2 }
.box { stroke: #7a3d0c; stroke-width: 1.2; stroke-dasharray: 5 3; fill: none }
</style>
"""
TRACE_STYLE = """<style>
.rim { stroke: #111111; stroke-width: 7; stroke-linecap: round }
.span { stroke-width: 4 }
.change { stroke: #111111; stroke-width: 1.5; fill: #ffd028 }
.place { text-anchor: middle; paint-order: stroke; stroke: #ffffff; stroke-width: 3px }
</style>
"""
# how entities are marked, from those that are drawn first: the colour, that of the rim, and the corners of the mark, which is turned
# to where the entity looks
MARKS = {
    LIGHT: ("#ffd028", "#6b4a00", [(4, 0), (1.4, 1.4), (0, 4), (-1.4, 1.4), (-4, 0), (-1.4, -1.4), (0, -4), (1.4, -1.4)]),
    OTHER: ("#1d5c9c", "#ffffff", [(5, 0), (0, 5), (-5, 0), (0, -5)]),
    START: ("#00803c", "#ffffff", [(10, 0), (-7, 7), (-4, 0), (-7, -7)]),
}


class View:
    """Which part of the world is shown, and where a point of it stands in the picture."""

    def __init__(self, extent):
        (west, east), (south, north) = extent
        rim = max(east - west, north - south) / Fraction(12) or 64
        self.west, self.east, self.south, self.north = west - rim, east + rim, south - rim, north + rim
        self.scale = LONGEST / float(max(self.east - self.west, self.north - self.south))
        self.wide, self.high = float(self.east - self.west) * self.scale, float(self.north - self.south) * self.scale

    def at(self, point):
        """A point of the world in the picture, north above."""
        return RIM + float(point[0] - self.west) * self.scale, RIM + LINE + float(self.north - point[1]) * self.scale

    def holds(self, point):
        """Whether a point of the world lies in the picture."""
        return self.west < point[0] < self.east and self.south < point[1] < self.north

    def shown(self, polygon):
        """The corners in the picture of what is shown of a piece, or None."""
        if all(self.west <= x <= self.east and self.south <= y <= self.north for x, y, _ in polygon):
            return [self.at(corner) for corner in polygon]
        sides = [(1, 0, 0, self.west), (-1, 0, 0, -self.east), (0, 1, 0, self.south), (0, -1, 0, -self.north)]
        part = in_front(polygon, sides)
        return part and [self.at(corner) for corner in part]


class Picture:
    """What a picture is made of: the tree and its slice, and what was asked for upon it."""

    def __init__(self, tree, height, found, view):
        self.tree, self.height = tree, height
        self.shown = [(leaf, corners) for leaf, corners in ((leaf, view.shown(piece)) for leaf, piece in found) if corners]
        self.view, self.overlay, self.legend = view, [], []
        kinds = {patterns.kind(tree.leaves[leaf]) for leaf, _ in self.shown}
        self.kinds = [name for name in patterns.KINDS if name in kinds]
        self.named = {patterns.HELD: "held by the row"}
        self.label_by_number = False
        self.lines, self.boxes = [], []

    def hold(self, number):
        """Draws the leaves that a row holds, and the row's own leaf; labels are now the numbers of rows."""
        held = set(self.tree.row(number))
        for leaf, corners in self.shown:
            if self.tree.leaves[leaf].number in held:
                self.overlay.append(f'<path d="{outline(corners)}" fill="url(#{patterns.HELD})"/>\n')
        for leaf, corners in self.shown:
            if self.tree.leaves[leaf].number == number:
                self.overlay.append(f'<path class="own" d="{outline(corners)}"/>\n')
        self.kinds.append(patterns.HELD)
        self.legend.append(('<path class="own" d="M2,-14H26V2H2Z"/>', f"the leaf of row {number}, which {counted(self.tree, number)}"))
        self.label_by_number = True

    def block(self, which, hull):
        """Draws what of the slice is solid in a clip hull, whose tree is given."""
        for leaf, piece in pieces(hull, self.height):
            corners = self.view.shown(piece) if hull.leaves[leaf].contents == "solid" else None
            if corners:
                self.overlay.append(f'<path d="{outline(corners)}" fill="url(#{patterns.BLOCKED})"/>\n')
        self.kinds.append(patterns.BLOCKED)
        self.named[patterns.BLOCKED] = f"solid in hull {which}"

    def place_models(self, models, entities, number):
        """Draws what the slice has of brush models, with their boxes; `entities` are those of a map, of which there may be none. Those
        that the row of a number does not see are pale. A browser shows what each is under the pointer."""
        self.overlay.append(MODEL_STYLE)
        for model in models:
            (west, south, below), (east, north, above) = model.low, model.high
            if not below <= self.height <= above:
                continue
            is_pale = number is not None and not self.tree.is_drawn(model, number)
            told = f"{told_of(model, entities)}, {box_of(model)}" + (f", not seen by row {number}" if is_pale else "")
            solid = [piece for leaf, piece in pieces(model.tree, self.height) if model.tree.leaves[leaf].contents != "empty"]
            parts = [f'<path class="model" fill="url(#{patterns.MODEL})" d="{outline(corners)}"/>' for corners in map(self.view.shown, solid) if corners]
            frame = self.view.shown([(x, y, self.height) for x, y in ((west, south), (east, south), (east, north), (west, north))])
            if frame:
                parts.append(f'<path class="box" d="{outline(frame)}"/>')
            pale = ' opacity="0.35"' if is_pale else ""
            self.overlay.append(f"<g{pale}><title>{escape(told)}</title>{''.join(parts)}</g>\n")
        self.kinds.append(patterns.MODEL)
        self.named[patterns.MODEL] = "brush model"
        self.legend.append(('<path class="box" d="M2,-14H26V2H2Z"/>', "box of a model"))

    def join(self, portals):
        """Draws the portals that the slice crosses."""
        crossed = ((front, back, crossing(corners, self.height)) for front, back, corners in portals)
        for front, back, ends in crossed:
            if ends:
                (x, y), (u, v) = (self.view.at(end) for end in ends)
                line = f'x1="{x:.1f}" y1="{y:.1f}" x2="{u:.1f}" y2="{v:.1f}"'
                self.overlay.append(f'<line class="portal" {line}><title>portal of {front} and {back}</title></line>\n'
                                  f'<line class="within" {line}/>\n')
        self.legend.append(('<path class="portal" d="M2,-5H26"/><path class="within" d="M2,-5H26"/>', "portal"))

    def follow(self, line):
        """Draws a leak line, with a ring at each contact and a dot where it begins."""
        points = [self.view.at(point) for point in line]
        self.lines += [*zip(points, points[1:]), *(line for point in points[1::2] for line in plus(point, 5)), *plus(points[0], 8)]
        path = "M" + "L".join(f"{x:.1f},{y:.1f}" for x, y in points)
        self.overlay.append(f'<path class="below" d="{path}"/>\n<path class="trail" d="{path}"/>\n')
        self.overlay += [f'<circle class="stop" cx="{x:.1f}" cy="{y:.1f}" r="4"/>\n' for x, y in points[1::2]]
        self.overlay.append('<circle class="start" cx="{:.1f}" cy="{:.1f}" r="7"/>\n'.format(*points[0]))
        self.legend.append(('<path class="trail" d="M2,-5H26"/><circle class="stop" cx="14" cy="-5" r="4"/>',
                            "leak line, with its contacts"))

    def trace(self, walked, first, second):
        """Draws a segment with its spans through a tree or a clip hull, from a dot on, and with each change its place as a fraction of
        the segment."""
        spans = walked.spans(first, second)
        points = [self.view.at(between(first, second, part)) for part in (0, *(span.to for span in spans))]
        ends = list(zip(points, points[1:]))
        self.lines += ends
        lines = [f'x1="{x:.1f}" y1="{y:.1f}" x2="{u:.1f}" y2="{v:.1f}"' for (x, y), (u, v) in ends]
        self.overlay += [TRACE_STYLE, *(f'<line class="rim" {line}/>\n' for line in lines)]
        for span, line in zip(spans, lines):
            kind = patterns.kind(walked.leaves[span.leaf])
            title = f"leaf {span.leaf}, {kind}, to {written(span.to)}"
            self.overlay.append(f'<line class="span" stroke="{patterns.KINDS[kind][0]}" {line}><title>{title}</title></line>\n')
        for span, (_, point) in zip(spans[:-1], ends):
            self.change(written(span.to), point, (points[-1][0] - points[0][0], points[-1][1] - points[0][1]))
        self.overlay.append('<circle cx="{:.1f}" cy="{:.1f}" r="6"/>\n'.format(*points[0]))
        self.legend.append(('<path class="rim" d="M4,-5H24"/><path class="span" stroke="#ffffff" d="M4,-5H24"/>'
                            '<circle class="change" cx="14" cy="-5" r="4"/>', "segment, by contents, with its changes"))

    def change(self, text, point, way):
        """Draws where a segment that leads some way comes into another leaf, and writes its place aside, where no other one stands."""
        (x, y), long = point, hypot(*way) or 1
        self.overlay.append(f'<circle class="change" cx="{x:.1f}" cy="{y:.1f}" r="4"><title>{text}</title></circle>\n')
        for side in (1, -1):
            middle = x + side * way[1] / long * (9 + 4 * len(text)), y - side * way[0] / long * 16
            box = labels.box(text, *middle, labels.SIZES[1])
            if not any(labels.overlap(box, other) for other in self.boxes):
                self.boxes.append(box)
                self.overlay.append(f'<text class="place" x="{middle[0]:.1f}" y="{middle[1] + 4.3:.1f}" font-size="12">{text}</text>\n')
                return

    def mark(self, marks):
        """Draws the entities that belong to what the slice shows. A browser shows the class of each under the pointer."""
        shown = [mark for mark in marks if self.view.holds(mark.place) and is_shown(self.tree, self.height, mark.place)]
        for kind in MARKS:
            these = [mark for mark in shown if mark.kind() == kind]
            for mark in these:
                x, y = self.view.at(mark.place)
                self.lines += plus((x, y), 5)
                self.overlay.append(drawn_mark(kind, mark.angle or 0, x, y, f"<title>{escape(mark.told())}</title>"))
            if these:
                self.legend.append((drawn_mark(kind, 0, 14, -5, ""), kind))


def box_of(model):
    """The box of a model, and how many leaves it touches."""
    low, high = (",".join(map(str, end)) for end in (model.low, model.high))
    return f"{low} to {high}, {len(model.leaves)} {'leaf' if len(model.leaves) == 1 else 'leaves'}"


def written(place):
    """A place on a segment, as the compiler prints it."""
    return f"{place.numerator}/{place.denominator}"


def counted(tree, number):
    """How many leaves a row holds, of how many."""
    return f"sees {len(tree.row(number))} of {len(tree.rows)} leaves"


def drawn_mark(kind, angle, x, y, title):
    """The mark of an entity of a kind, turned by an angle in degrees, with its middle at a place of the picture."""
    colour, rim, corners = MARKS[kind]
    right, up = cos(radians(angle)), sin(radians(angle))
    path = outline([(x + a * right - b * up, y - a * up - b * right) for a, b in corners])
    return f'<path fill="{colour}" stroke="{rim}" stroke-width="0.9" d="{path}">{title}</path>\n'


def plus(point, reach):
    """Two lines through a point, which stand for a dot or a ring."""
    x, y = point
    return [((x - reach, y), (x + reach, y)), ((x, y - reach), (x, y + reach))]


def outline(corners):
    """The path round a piece."""
    return "M" + "L".join(f"{x:.1f},{y:.1f}" for x, y in corners) + "Z"


def drawn_pieces(picture):
    """The pieces, each with what it is as the text that a browser shows under the pointer."""
    for leaf, corners in picture.shown:
        what = picture.tree.leaves[leaf]
        number = "" if what.number is None else f", number {what.number}"
        title = f"leaf {leaf}, {patterns.kind(what)}{number}"
        yield f'<path class="piece" fill="url(#{patterns.kind(what)})" d="{outline(corners)}"><title>{title}</title></path>\n'


def drawn_labels(picture):
    """The number of each leaf that is not solid, where it fits into its piece."""
    for leaf, corners in picture.shown:
        number = picture.tree.leaves[leaf].number
        text = str(number if picture.label_by_number else leaf)
        placed = labels.place(text, corners, picture.lines) if number is not None else None
        if placed and not any(labels.overlap(labels.box(text, *placed), box) for box in picture.boxes):
            x, y, size = placed
            yield f'<text class="label" x="{x:.1f}" y="{y + 0.36 * size:.1f}" font-size="{size}">{text}</text>\n'


def drawn_legend(picture, top):
    """What each fill and line means, item behind item in lines, and how high all of it is."""
    items = [(f'<rect x="2" y="-14" width="24" height="16" class="piece" fill="url(#{name})"/>', picture.named.get(name, name))
             for name in picture.kinds]
    items += picture.legend
    items.append(("", "labels: numbers of rows" if picture.label_by_number else "labels: numbers of leaves"))
    text, x, y = "", RIM, top + LINE
    for sign, words in items:
        indent = 34 if sign else 2
        wide = indent + LETTER * len(words) + GAP
        if x > RIM and x + wide > RIM + max(picture.view.wide, LEAST):
            x, y = RIM, y + LINE
        text += f'<g transform="translate({x:.1f},{y:.1f})">{sign}<text x="{indent}" font-size="13">{words}</text></g>\n'
        x += wide
    return text, y - top


def drawn(picture, name):
    """The whole picture, as the text of an SVG file."""
    view = picture.view
    legend, high = drawn_legend(picture, RIM + LINE + view.high)
    title = titled(picture, name)
    wide, high = max(view.wide, LEAST, 8 * len(title)) + 2 * RIM, view.high + LINE + high + 2 * RIM
    frame = f'x="{RIM}" y="{RIM + LINE}" width="{view.wide:.1f}" height="{view.high:.1f}"'
    size = f'viewBox="0 0 {wide:.1f} {high:.1f}" width="{wide:.0f}" height="{high:.0f}"'
    return "".join((
        f'<svg xmlns="http://www.w3.org/2000/svg" {size}>\n', STYLE, patterns.definitions(picture.kinds),
        f'<clipPath id="frame"><rect {frame}/></clipPath>\n<rect width="100%" height="100%" fill="#ffffff"/>\n',
        f'<text x="{RIM}" y="{RIM + 12}" font-size="14">{escape(title)}</text>\n',
        '<g clip-path="url(#frame)">\n', *drawn_pieces(picture), *picture.overlay, *drawn_labels(picture),
        f'</g>\n<rect {frame} fill="none" stroke="#111111"/>\n', legend, "</svg>\n"))


def titled(picture, name):
    """What stands above the picture."""
    view = picture.view
    return (f"{name}, slice at z = {decimal(picture.height, 6)}, "
            f"x {span(view.west, view.east)}, y {span(view.south, view.north)}")


def span(low, high):
    """From where to where the picture reaches, in whole numbers."""
    return f"{round(low)} to {round(high)}"
