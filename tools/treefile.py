"""Reads a tree file, as `qmapc compile` writes it: planes, nodes, leaves, and the rows of what is seen from where.

    import treefile
    tree = treefile.load("room.tree")
    leaf = tree.leaf_at((0, 0, 24))
    print(leaf, tree.leaves[leaf].contents)
    print(tree.hull(1).is_solid_at((0, 0, 24)))
    print(tree.spans((0, 0, 24), (0, 0, 200)))
    print([model.entity for model in tree.models() if tree.is_drawn(model, 0)])
    print([[tree.corner(numbers) for numbers in piece.corners] for piece in tree.faces()])
    print(tree.contacts()[0])

docs/TREEFILE.md describes the file; both versions are read. This module needs nothing but the standard library, and may be
copied. If a file is no tree file, it raises the first fault in the order of the file, with the place of its byte.
"""

from fractions import Fraction
from math import gcd
from operator import gt
from os.path import getsize
from struct import calcsize, iter_unpack, unpack
from typing import NamedTuple, Optional

MOST_BYTES = 1 << 30
# of version 1 and of version 2
MAGICS = (b"QMTREE01", b"QMTREE02")
BOUNDS = (4096, 32768)
CONTENTS = {-1: "empty", -2: "solid", -3: "water", -4: "slime", -5: "lava", -6: "sky"}
SOLID = -2
# the kinds of the sections that have clip hulls, each with the box that is a point there, by its low and its high end
HULLS = {1: ((-16, -16, -24), (16, 16, 32)), 2: ((-32, -32, -24), (32, 32, 64))}
# the kinds of the sections that have brush models, and faces
MODELS, FACES = 3, 4


class Fault(Exception):
    """Why bytes are no tree file: what is wrong, and at which byte."""

    def __init__(self, words, place):
        super().__init__(f"{words} at byte {place}")
        self.words, self.place = words, place


class NoPart(Exception):
    """That a file has no section of the kind that is asked for."""


class BadPart(Exception):
    """Why the bytes of a section are not what its kind says."""


class Plane(NamedTuple):
    """The points with nx*x + ny*y + nz*z = d. A point where that is greater or equal lies to its front."""
    nx: int
    ny: int
    nz: int
    d: int


class Node(NamedTuple):
    """The number of a plane, and two children: a node by its number, a leaf by -(1 + its number)."""
    plane: int
    front: int
    back: int


class Leaf(NamedTuple):
    """What fills a leaf, whether it is filled since it lies outside, and its number among those that are not solid."""
    contents: str
    filled: bool
    number: Optional[int]


class Section(NamedTuple):
    """A part of the file besides: its kind, and its bytes as they are."""
    kind: int
    data: bytes


class Span(NamedTuple):
    """A part of a segment: the leaf in which it lies, and the part of the whole segment, above 0 and at most 1, at which it ends."""
    leaf: int
    to: Fraction


class Model(NamedTuple):
    """The brushes of an entity other than the world, such as a door: the number of the entity in the map, the world being 0; the
    least box of whole numbers around the brushes, by its low and its high end; the numbers of the leaves that they touch; and
    their tree."""
    entity: int
    low: tuple
    high: tuple
    leaves: list
    tree: "Tree"


class Piece(NamedTuple):
    """A piece of the surface between rock and what is not solid: the leaf that it faces; the brush to which it belongs, by its number
    among those of the world that are not clip, and the number of its face there; and the corners, which go round with the clock as
    seen from the leaf. Each corner is three numbers of planes that meet there: the piece's own, that of the edge to the corner before,
    and that of the edge to the next one."""
    leaf: int
    brush: int
    face: int
    corners: list


class Tree(NamedTuple):
    """A whole file. The world is the cube in which each coordinate lies between -`bound` and `bound`. `rows` has the bytes of a
    row for each numbered leaf, or is None where the file has no rows."""
    version: int
    bound: int
    planes: list
    nodes: list
    leaves: list
    rows: Optional[list]
    sections: list

    def root(self):
        """The child from which each way begins."""
        return 0 if self.nodes else -1

    def leaf_at(self, point):
        """The number of the leaf to which a point leads; what lies on a plane goes to its front."""
        child = self.root()
        while child >= 0:
            plane, front, back = self.nodes[child]
            child = front if value(self.planes[plane], point) >= 0 else back
        return -1 - child

    def spans(self, first, second):
        """The spans of the segment from one point to another, whose coordinates are whole numbers or fractions. Between two of their
        ends each point leads to the leaf there; so what lies on a plane is in front of it, also where the whole segment does."""
        found, waiting = [], [(self.root(), Fraction(0), Fraction(1))]
        while waiting:
            child, low, high = waiting.pop()
            if child < 0:
                found.append(Span(-1 - child, high))
                continue
            plane, front, back = self.nodes[child]
            here, there = (value(self.planes[plane], point) for point in (first, second))
            at_low, at_high = (here + part * (there - here) for part in (low, high))
            if at_low >= 0 and at_high >= 0 or at_low <= 0 and at_high <= 0:
                waiting.append((front if at_low >= 0 and at_high >= 0 else back, low, high))
            else:
                cut = Fraction(here) / (here - there)
                near, far = (front, back) if at_low > 0 else (back, front)
                waiting += [(far, cut, high), (near, low, cut)]
        return found

    def is_solid_at(self, point):
        """Whether the leaf to which a point leads is solid."""
        return self.leaves[self.leaf_at(point)].contents == "solid"

    def part(self, kind):
        """The bytes of the section of a kind. Raises `NoPart`."""
        for section in self.sections:
            if section.kind == kind:
                return section.data
        raise NoPart(f"no section {kind}")

    def hull(self, kind):
        """The tree of a clip hull, 1 or 2, in which a moving box is a point. Raises `NoPart`, or `BadPart` where the section has no
        such tree."""
        return plain(self.part(kind), self.bound)

    def models(self):
        """The brush models, in the order of their entities. Raises `NoPart`, or `BadPart` where the section has none such."""
        try:
            return read_models(self.part(MODELS), self.bound, self.numbered())
        except Fault as fault:
            raise BadPart(f"no brush models: {fault}") from None

    def faces(self):
        """The pieces of the surface. Raises `NoPart`, or `BadPart` where the section has none such."""
        try:
            return read_faces(self.part(FACES), self)
        except Fault as fault:
            raise BadPart(f"no faces: {fault}") from None

    def named_plane(self, number):
        """The plane of a number: from 0 on one of the file, and from -1 to -6 a wall of the cube, turned inward. Else None."""
        if 0 <= number < len(self.planes):
            return self.planes[number]
        axis, is_high = divmod(-1 - number, 2)
        if not 0 <= axis < 3:
            return None
        return Plane(*((-1 if is_high else 1) * (axis == other) for other in range(3)), -self.bound)

    def corner(self, numbers):
        """The point in which the planes of three numbers meet, in fractions."""
        *point, weight = meeting(*map(self.named_plane, numbers))
        return tuple(Fraction(part, weight) for part in point)

    def contacts(self):
        """For each numbered leaf the numbers of those that touch it and hold other contents, such as water under air, as sets. A
        polygon of more than a line is in both. Rows do not know these: an engine adds them."""
        found = [set() for _ in range(self.numbered())]
        above = {child: node for node, (_, *children) in enumerate(self.nodes) for child in children}
        for node in range(len(self.nodes)):
            for one, other in self.parted(node, above):
                if None not in (one.number, other.number) and one.contents != other.contents:
                    found[one.number].add(other.number)
                    found[other.number].add(one.number)
        return found

    def parted(self, node, above):
        """The pairs of leaves that touch on the plane of a node, in front of it and behind it. `above` has the node above each child."""
        number, front, back = self.nodes[node]
        polygon = square(self.planes[number], self.bound)
        while node and polygon:
            child, node = node, above[node]
            polygon = on_side(polygon, self.planes[self.nodes[node].plane], self.nodes[node].front == child)
        waiting = [(front, back, polygon)] if polygon else []
        while waiting:
            one, other, polygon = waiting.pop()
            if one < 0 and other < 0:
                yield self.leaves[-1 - one], self.leaves[-1 - other]
                continue
            plane, *children = self.nodes[one if one >= 0 else other]
            for to_front, child in zip((True, False), children):
                part = on_side(polygon, self.planes[plane], to_front)
                if part:
                    waiting.append((child, other, part) if one >= 0 else (one, child, part))

    def is_drawn(self, model, number):
        """Whether a model may be seen from the leaf of a number: its row holds a leaf that the model touches."""
        row = self.rows[number]
        return any(row[leaf >> 3] >> (leaf & 7) & 1 for leaf in model.leaves)

    def numbered(self):
        """How many leaves have a number."""
        return sum(leaf.number is not None for leaf in self.leaves)

    def row(self, number):
        """The numbers of the leaves that a row holds, from the least on."""
        return [8 * place + bit for place, byte in enumerate(self.rows[number]) if byte for bit in range(8) if byte >> bit & 1]


def value(plane, point):
    """How far in front of a plane a point is, as a multiple of the normal's length."""
    return plane[0] * point[0] + plane[1] * point[1] + plane[2] * point[2] - plane[3]


def on_side(polygon, plane, to_front):
    """What a polygon has on one side of a plane, by its corners: none if it only touches the plane. One on the plane counts to its front."""
    sides = [value(plane, corner) * (1 if to_front else -1) for corner in polygon]
    if not any(sides):
        return polygon if to_front else []
    if max(sides) <= 0:
        return []
    part = []
    for here, there, corner, following in zip(sides, sides[1:] + sides[:1], polygon, polygon[1:] + polygon[:1]):
        if here >= 0:
            part.append(corner)
        if here > 0 > there or here < 0 < there:
            cut = Fraction(here) / (here - there)
            part.append(tuple(a + cut * (b - a) for a, b in zip(corner, following)))
    return part


def square(plane, bound):
    """The part of a plane that lies in the cube of a bound, by its corners."""
    axis = max(range(3), key=lambda each: abs(plane[each]))
    one, other = (axis + 1) % 3, (axis + 2) % 3
    polygon = []
    for ends in ((-1, -1), (1, -1), (1, 1), (-1, 1)):
        corner = [Fraction(0)] * 3
        corner[one], corner[other] = (Fraction(end * bound) for end in ends)
        corner[axis] = -value(plane, corner) / Fraction(plane[axis])
        polygon.append(tuple(corner))
    for end in (1, -1):
        wall = Plane(*(end * (each == axis) for each in range(3)), -bound)
        polygon = polygon and on_side(polygon, wall, True)
    return polygon


def crossed(one, other):
    """The direction across the normals of two planes."""
    return one[1] * other[2] - one[2] * other[1], one[2] * other[0] - one[0] * other[2], one[0] * other[1] - one[1] * other[0]


def meeting(one, two, three):
    """Where three planes meet: x, y, z and w, which stand for the point (x/w, y/w, z/w); w is 0 where they do not meet in one point."""
    across = crossed(two, three), crossed(three, one), crossed(one, two)
    weight = one[0] * across[0][0] + one[1] * across[0][1] + one[2] * across[0][2]
    return (*(one[3] * a + two[3] * b + three[3] * c for a, b, c in zip(*across)), weight)


def load(name):
    """The tree of a file. Raises `Fault`, or `OSError` where the file is not read."""
    if getsize(name) > MOST_BYTES:
        raise Fault("too long", MOST_BYTES)
    with open(name, "rb") as file:
        return decode(file.read(MOST_BYTES + 1))


def decode(data):
    """The tree of the bytes of a whole file, or the first `Fault`."""
    if len(data) > MOST_BYTES:
        raise Fault("too long", MOST_BYTES)
    version = read_magic(data)
    counts = read_counts(data)
    bound, parts, at = read_size(data) if version == 2 else (BOUNDS[0], 0, 41)
    planes, at = read_planes(data, at, counts[0])
    nodes, at = read_nodes(data, at, counts)
    leaves, at = read_leaves(data, at, counts)
    rows, at = read_rows(data, at, counts[3]) if counts[4] else (None, at)
    sections, at = read_sections(data, at, parts)
    if at < len(data):
        raise Fault("trailing", at)
    return Tree(version, bound, planes, nodes, leaves, rows, sections)


def plain(data, bound):
    """The tree of bytes that stand in a section: a whole file of version 2 in a cube of the same size, without rows and without
    sections. Raises `BadPart`."""
    try:
        found = decode(data)
    except Fault as fault:
        raise BadPart(f"no tree file: {fault}") from None
    if found.version != 2 or found.bound != bound:
        raise BadPart(f"a tree file of version {found.version} and bound {found.bound}")
    if found.rows is not None or found.sections:
        raise BadPart("a tree file with rows or sections")
    return found


def take(data, at, count):
    """So many bytes from a place on."""
    if at + count > len(data):
        raise Fault("short", len(data))
    return data[at:at + count]


def records(data, at, count, layout):
    """Of so many records those that are there as a whole; where some are missing, `due` raises the fault later."""
    size = calcsize(layout)
    whole = min(count, (len(data) - at) // size)
    return iter_unpack(layout, data[at:at + whole * size]), at + count * size


def due(data, end):
    """Raises the fault of bytes that end before a place."""
    if end > len(data):
        raise Fault("short", len(data))


def read_magic(data):
    """The version."""
    magic = take(data, 0, 8)
    for place, byte in enumerate(magic):
        if all(byte != wanted[place] for wanted in MAGICS):
            raise Fault("magic", place)
    return 1 + MAGICS.index(magic)


def read_counts(data):
    """How many planes, nodes, leaves and numbered leaves there are, and whether there are rows."""
    counts = []
    for at in (8, 16, 24, 32):
        counts += unpack("<Q", take(data, at, 8))
        if at == 8 and counts[0] >= 1 << 32 or at == 24 and counts[2] != counts[1] + 1 or at == 32 and counts[3] > counts[2]:
            raise Fault("counts", at)
    counts += take(data, 40, 1)
    if counts[4] > 1:
        raise Fault("counts", 40)
    return counts


def read_size(data):
    """What version 2 has before the planes: how far the world reaches, and how many sections there are. Then the place after these."""
    bound, = unpack("<I", take(data, 41, 4))
    if bound not in BOUNDS:
        raise Fault("header form", 41)
    return bound, *unpack("<I", take(data, 45, 4)), 49


def read_planes(data, first, count):
    """The planes, and the place after them."""
    planes = []
    found, end = records(data, first, count, "<3iq")
    for plane in found:
        nx, ny, nz, d = plane
        leading = nx or ny or nz
        if leading <= 0 or max(abs(nx), abs(ny), abs(nz)) > 1 << 26 or abs(d) > 1 << 44 or gcd(gcd(nx, ny), gcd(nz, d)) != 1:
            raise Fault("plane form", first + 20 * len(planes))
        planes.append(Plane(*plane))
    due(data, end)
    return planes, end


def read_nodes(data, first, counts):
    """The nodes, and the place after them."""
    found, end = records(data, first, counts[1], "<Iqq")
    nodes = [Node(*node) for node in found]
    due(data, end)
    if not in_order(nodes, counts[0], counts[2]):
        raise Fault("node order", first)
    return nodes, end


def in_order(nodes, planes, leaves):
    """Whether a walk, each node before its front and that before its back, meets all by their numbers."""
    if any(node.plane >= planes for node in nodes):
        return False
    waiting, next_node, next_leaf = [0 if nodes else -1], 0, 0
    while waiting:
        child = waiting.pop()
        if child < 0:
            if -1 - child != next_leaf or next_leaf >= leaves:
                return False
            next_leaf += 1
        else:
            if child != next_node or next_node >= len(nodes):
                return False
            next_node += 1
            waiting += [nodes[child].back, nodes[child].front]
    return next_node == len(nodes) and next_leaf == leaves


def read_leaves(data, first, counts):
    """The leaves, and the place after them."""
    leaves, numbered = [], 0
    found, end = records(data, first, counts[2], "<iB")
    for code, filled in found:
        if code not in CONTENTS or filled > 1 or (filled and code != SOLID):
            raise Fault("leaf form", first + 5 * len(leaves))
        leaves.append(Leaf(CONTENTS[code], filled == 1, None if code == SOLID else numbered))
        numbered += code != SOLID
    due(data, end)
    if numbered != counts[3]:
        raise Fault("counts", 32)
    return leaves, end


def read_rows(data, at, count):
    """The rows, one for each numbered leaf, and the place after them."""
    rows = []
    for own in range(count):
        row, end = read_row(data, at, (count + 7) // 8)
        past = row[-1] >> count % 8 if count % 8 else 0
        if past or not row[own // 8] >> own % 8 & 1:
            raise Fault("row form", at)
        rows.append(row)
        at = end
    return rows, at


def read_row(data, at, width):
    """The bytes of the row that begins at a place, and the place after it. A byte that is not 0 stands for itself, and a 0
    is followed by how many zeros there are, as many as there can be."""
    parts, place, left, could_be_longer, end = [], at, width, False, len(data)
    while left:
        zero = data.find(0, place, place + left)
        plain = left if zero < 0 else zero - place
        if plain:
            parts.append(data[place:place + plain])
            place, left, could_be_longer = place + plain, left - plain, False
        if zero < 0:
            due(data, place)
            continue
        if could_be_longer:
            raise Fault("row form", at)
        if place + 1 == end:
            raise Fault("short", end)
        zeros = data[place + 1]
        if not 0 < zeros <= left:
            raise Fault("row form", at)
        parts.append(bytes(zeros))
        place, left, could_be_longer = place + 2, left - zeros, zeros < 255
    return b"".join(parts), place


def read_sections(data, at, count):
    """The sections, and the place after them. Their kinds ascend from 1 on."""
    sections = []
    while len(sections) < count:
        kind, length = unpack("<IQ", take(data, at, 12))
        if kind <= (sections[-1].kind if sections else 0):
            raise Fault("section form", at)
        sections.append(Section(kind, take(data, at + 12, length)))
        at += 12 + length
    return sections, at


def read_models(data, bound, numbered):
    """The brush models that the bytes of a section say, in a world of a bound that has so many numbered leaves. Raises `Fault`: a
    model is looked at when all its bytes are there."""
    count, = unpack("<I", take(data, 0, 4))
    models, at = [], 4
    while len(models) < count:
        model, end = read_model(data, at, bound)
        before = models[-1].entity if models else 0
        ascends = all(one < other for one, other in zip([-1, *model.leaves], [*model.leaves, numbered]))
        if model.entity <= before or model.tree is None or not ascends or any(map(gt, model.low, model.high)):
            raise Fault("form", at)
        models.append(model)
        at = end
    if at < len(data):
        raise Fault("trailing", at)
    return models


def read_model(data, at, bound):
    """The brush model whose bytes begin at a place, whose tree is None if its bytes are no tree file, and the place after it."""
    entity, *ends, count = unpack("<Q6iQ", take(data, at, 40))
    leaves = unpack(f"<{count}Q", take(data, at + 40, 8 * count))
    at += 40 + 8 * count
    length, = unpack("<Q", take(data, at, 8))
    try:
        tree = plain(take(data, at + 8, length), bound)
    except BadPart:
        tree = None
    return Model(entity, tuple(ends[:3]), tuple(ends[3:]), list(leaves), tree), at + 8 + length


def read_faces(data, tree):
    """The pieces of the surface that the bytes of a section say, for a tree. Raises `Fault`: a piece is looked at when all its bytes are
    there."""
    count, = unpack("<Q", take(data, 0, 8))
    found, at, are_met = [], 8, {}
    while len(found) < count:
        piece, end = read_piece(data, at)
        for corner in piece.corners:
            if corner not in are_met:
                planes = [tree.named_plane(number) for number in corner]
                are_met[corner] = None not in planes and meeting(*planes)[3] != 0
        if len(piece.corners) < 3 or piece.leaf >= len(tree.leaves) or not all(are_met[corner] for corner in piece.corners):
            raise Fault("form", at)
        found.append(piece)
        at = end
    if at < len(data):
        raise Fault("trailing", at)
    return found


def read_piece(data, at):
    """The piece whose bytes begin at a place, and the place after it."""
    leaf, brush, face, count = unpack("<QQII", take(data, at, 24))
    corners = iter_unpack("<3q", take(data, at + 24, 24 * count))
    return Piece(leaf, brush, face, list(corners)), at + 24 + 24 * count
