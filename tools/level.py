"""Puts a level together for engines: from a map and its tree the parts of a BSP file."""

from math import floor
import re
from typing import NamedTuple

from below import contents_below
from bodies import bodies
import brushes
from bspfile import MOST_SIGNED, File
import clip
import clip_cells
import drawn_faces
from mapfaces import CLIP
from mapping import laid
from match import leading
from merging import merged
from miptex import Textures
import sections
from smalltree import built
from surfaces import OPEN
import texels
from treefile import CONTENTS, HULLS

# entities that are there for editors alone
GROUPS = (b"func_group", b"func_detail")
# the brightness of what looks up, down, and to the sides, from 0 to 255; and how many different ones there are
BRIGHTNESS = {(2, 1): 210, (2, -1): 100, (0, 1): 165, (0, -1): 150, (1, 1): 185, (1, -1): 135}
LEVELS = 16
NO_STYLE, NO_LIGHT, NO_ROW, SOLID_LEAF, UNLIT = 255, -1, -1, -1, 1
# what no engine has lit: sky and liquids
SPECIAL = (b"*", b"sky")
CODES = {contents: code for code, contents in CONTENTS.items()}


class Wanted(NamedTuple):
    """What is asked for: the textures of WAD files, how many texels a face has at most, and whether all is dark."""
    wads: list
    texels: int
    is_dark: bool


class Box(NamedTuple):
    """The least box of whole numbers around something."""
    low: tuple
    high: tuple


NOWHERE = Box((0, 0, 0), (0, 0, 0))


class Model(NamedTuple):
    """The world or the brushes of another entity: their tree; their bodies, and the parts of faces that are drawn; the box around each
    leaf that is not solid, by its number among these; and the nodes of both clip hulls."""
    tree: object
    bodies: list
    drawn: list
    boxes: dict
    hulls: list


class Shown(NamedTuple):
    """A part of a face as engines take it; how its texture lies; and whether it has light."""
    part: object
    ways: tuple
    is_lit: bool


class Level:
    """A level while it is put together."""

    def __init__(self, wanted):
        self.file, self.wanted, self.textures = File(), wanted, Textures(wanted.wads)
        self.side = wanted.texels // texels.STEP + 2
        self.file.add("leaves", (clip.SOLID, NO_ROW, *(0,) * 12))

    def add_model(self, model, visibility):
        """Adds a model: its nodes, leaves and faces, and its clip hulls. `visibility` has where the row of each leaf begins."""
        first_leaf, first_node, first_face = (len(self.file.records[part]) for part in ("leaves", "nodes", "faces"))
        shown = self.shown(merged(model.drawn))
        faces = self.add_faces(model.tree, shown, first_face)
        self.add_leaves(model, marks(model.tree, shown, first_face), visibility)
        self.add_nodes(model, faces, first_node, first_leaf)
        heads = [first_node, *map(self.add_hull, model.hulls), 0]
        numbered = len(self.file.records["leaves"]) - first_leaf
        around = around_all(model.bodies)
        self.file.add("models", (*around.low, *around.high, 0, 0, 0, *heads, numbered, first_face, len(shown)))

    def shown(self, drawn):
        """Parts of faces as engines take them: cut, and with corners wherever others have them."""
        found = []
        for part in drawn:
            ways = laid(part.face.plane, part.face.mapping)
            # sky and liquids have no light, and so need no cutting
            is_lit = not part.face.texture.lower().rpartition(b"/")[2].startswith(SPECIAL) and not texels.is_too_fine(
                part.polygon, ways, self.wanted.texels)
            for polygon in texels.cut(part.polygon, ways, self.wanted.texels) if is_lit else [part.polygon]:
                found.append(Shown(part._replace(polygon=polygon), ways, is_lit))
        polygons = texels.joined([one.part.polygon for one in found])
        return [one._replace(part=one.part._replace(polygon=polygon)) for one, polygon in zip(found, polygons)]

    def add_faces(self, tree, shown, first):
        """Adds faces, and answers of each node its first one and how many it has."""
        found = {}
        for number, (part, ways, is_lit) in enumerate(shown, first):
            begin, _ = found.get(part.node, (number, 0))
            found[part.node] = begin, number + 1 - begin
            texture = self.textures.number(part.face.texture)
            texinfo = self.file.texinfo(ways[0].written + ways[1].written + (texture, 0 if is_lit else UNLIT))
            plane = self.file.plane(tuple(tree.planes[tree.nodes[part.node].plane]))
            light = (0, NO_STYLE, NO_STYLE, NO_STYLE, self.light(part)) if is_lit else (*(NO_STYLE,) * 4, NO_LIGHT)
            self.file.add("faces", (plane, int(part.is_behind), *self.file.polygon(part.polygon), texinfo, *light))
        self.file.shared.clear()
        return found

    def light(self, part):
        """Where the light of a face stands: one block for each brightness."""
        if self.wanted.is_dark:
            return 0
        squares = [number * number for number in part.face.plane[:3]]
        bright = sum(BRIGHTNESS[axis, 1 if part.face.plane[axis] > 0 else -1] * square for axis, square in enumerate(squares))
        return floor(bright / sum(squares) * LEVELS / 256) * self.side ** 2

    def lighting(self):
        """The light of all faces."""
        block = self.side ** 2
        if self.wanted.is_dark:
            return bytes(block)
        return b"".join(bytes([256 // LEVELS * level + 256 // LEVELS // 2]) * block for level in range(LEVELS))

    def add_leaves(self, model, marked, visibility):
        """Adds the leaves that are not solid, each with the faces that are seen from it."""
        for leaf in (leaf for leaf in model.tree.leaves if leaf.number is not None):
            first, faces, box = len(self.file.records["marks"]), marked.get(leaf.number, ()), model.boxes.get(leaf.number, NOWHERE)
            for face in faces:
                self.file.add("marks", (face,))
            row = visibility[leaf.number] if visibility else NO_ROW
            self.file.add("leaves", (CODES[leaf.contents], row, *box.low, *box.high, first, len(faces), 0, 0, 0, 0))

    def add_nodes(self, model, faces, first_node, first_leaf):
        """Adds the nodes above leaves that are not solid. What else there is, is leaf 0."""
        tree, around = model.tree, boxes_below(model)
        kept = [number for number in range(len(tree.nodes)) if around[number]]
        names = {number: place for place, number in enumerate(kept, first_node)}
        for leaf, what in enumerate(tree.leaves):
            names[-1 - leaf] = SOLID_LEAF if what.number is None else -1 - (first_leaf + what.number)
        for number in kept:
            plane, front, back = tree.nodes[number]
            children = (names.get(child, SOLID_LEAF) for child in (front, back))
            self.file.add("nodes", (self.file.plane(tuple(tree.planes[plane])), *children, *around[number].low, *around[number].high,
                                    *faces.get(number, (0, 0))))
        if not kept:
            # engines want a node
            child, box = names.get(tree.root(), SOLID_LEAF), around[tree.root()] or NOWHERE
            self.file.add("nodes", (self.file.plane(clip.ANY), child, child, *box.low, *box.high, 0, 0))

    def add_hull(self, nodes):
        """Adds the nodes of a clip hull, and answers the number of the first."""
        first = len(self.file.records["clip nodes"])
        for plane, *children in nodes:
            if leading(plane) != plane:
                plane, children = leading(plane), children[::-1]
            self.file.add("clip nodes", (self.file.plane(plane), *(child if child < 0 else first + child for child in children)))
        return first


def clamped(numbers):
    """Whole numbers of two bytes."""
    return tuple(min(max(number, -MOST_SIGNED), MOST_SIGNED) for number in numbers)


def around_all(bodies_here):
    """The box around some brushes."""
    if not bodies_here:
        return NOWHERE
    lows, highs = zip(*(body.low for body in bodies_here)), zip(*(body.high for body in bodies_here))
    return Box(clamped(map(min, lows)), clamped(map(max, highs)))


def leaf_boxes(tree):
    """The box around each leaf that is not solid, by its number among these."""
    found = {}
    for leaf, faces in bodies(tree, contents_below(tree), OPEN):
        found[tree.leaves[leaf].number] = Box(*map(clamped, brushes.box({corner for face in faces for corner in face.polygon})))
    return found


def boxes_below(model):
    """The box around what is not solid below each child of a node, or None."""
    around = [None] * len(model.tree.nodes) + [model.boxes.get(leaf.number) for leaf in reversed(model.tree.leaves)]
    for number in reversed(range(len(model.tree.nodes))):
        _, front, back = model.tree.nodes[number]
        one, other = around[front], around[back]
        both = one and other and Box(tuple(map(min, one.low, other.low)), tuple(map(max, one.high, other.high)))
        around[number] = both or one or other
    return around


def marks(tree, shown, first):
    """The faces that are seen from each leaf, by the leaf's number among those that are not solid."""
    found = {}
    for number, one in enumerate(shown, first):
        for leaf in drawn_faces.seen_from(tree, one.part):
            found.setdefault(leaf, []).append(number)
    return found


def visibility_of(tree):
    """The bytes of all rows, equal ones once, and where the row of each leaf begins. A row is written as the tree file has it."""
    places, parts, length, found = {}, [], 0, []
    for row in tree.rows or ():
        if row not in places:
            parts.append(re.sub(b"\\0{1,255}", lambda zeros: bytes((0, len(zeros[0]))), row))
            places[row] = length
            length += len(parts[-1])
        found.append(places[row])
    return b"".join(parts), found


def entity_text(entities):
    """The text of the entities: brushes become models, by their numbers. Groups are left out."""
    parts, model = [], 0
    for number, entity in enumerate(entities):
        if number and entity.value(b"classname") in GROUPS:
            continue
        pairs = entity.pairs
        if not number and entity.value(b"classname") is None:
            pairs = [(b"classname", b"worldspawn")] + pairs
        if number and entity.brushes:
            model += 1
            pairs = [pair for pair in pairs if pair[0] != b"model"] + [(b"model", b"*%d" % model)]
        parts += [b"{\n", *(b'"%b" "%b"\n' % pair for pair in pairs), b"}\n"]
    return b"".join(parts) + b"\0"


def world_of(tree, entity, bodies_here):
    """The model of the world."""
    boxes, pieces = leaf_boxes(tree), sections.faces(tree)
    hulls = [hull_of(tree, kind, bodies_here, list(boxes.values())) for kind in HULLS]
    bodies_drawn, stored = brushes.drawn(bodies_here), []
    if pieces is not None:
        listed = [brush for brush in entity.brushes if brush.contents() != CLIP]
        stored = list(drawn_faces.of_pieces(tree, listed, pieces))
        # the section has the faces of solid brushes alone
        bodies_drawn = [body for body in bodies_drawn if body.contents != "solid"]
    return Model(tree, bodies_here, stored + drawn_faces.drawn(tree, bodies_drawn), boxes, hulls)


def hull_of(tree, kind, bodies_here, boxes):
    """A clip hull of the world: that of the tree file, or one that is made here."""
    stored = sections.hull(tree, kind)
    return clip.of_section(stored, boxes) if stored else clip_cells.made(bodies_here, kind, tree.bound, boxes)


def model_of(entity, tree, bound):
    """The model of another entity, with its tree where there is one."""
    bodies_here = brushes.full(entity.brushes, bound)
    bodies_drawn = brushes.drawn(bodies_here)
    tree = tree or built(bodies_drawn, bound)
    hulls = [clip_cells.made(bodies_here, hull, bound, None) for hull in HULLS]
    return Model(tree, bodies_here, drawn_faces.drawn(tree, bodies_drawn), leaf_boxes(tree), hulls)


def level_of(tree, entities, wanted, bodies_here):
    """The level of a tree and the entities of its map, with the bodies of the world's brushes. Raises `sections.BadSection`."""
    level, (rows, places), stored = Level(wanted), visibility_of(tree), sections.models(tree)
    level.add_model(world_of(tree, entities[0], bodies_here), places)
    for number, entity in enumerate(entities[1:], 1):
        if entity.brushes and entity.value(b"classname") not in GROUPS:
            level.add_model(model_of(entity, stored.get(number), tree.bound), [])
    level.file.bytes.update(entities=entity_text(entities), visibility=rows, lighting=level.lighting(),
                            textures=level.textures.packed())
    return level
