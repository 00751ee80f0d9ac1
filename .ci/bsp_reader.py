"""Reads a level for engines, of either form: BSP29, or BSP2 with its numbers of four bytes. It shares nothing with the writer.

    import bsp_reader
    level = bsp_reader.load("room.bsp")
    print(len(level.faces), level.leaf_at((0, 0, 24)))

Numbers with a point are given as the file has them. `Fault` says what of the file's layout is wrong; what the parts mean is not
looked at."""

from struct import calcsize, iter_unpack, unpack_from
from typing import NamedTuple

LUMPS = ("entities planes textures vertices visibility nodes mappings faces light clip_nodes leaves marks edges face_edges "
         "models").split()
HEAD = 4 + 8 * len(LUMPS)
SOLID = -2


class Fault(Exception):
    """What is wrong with a file's layout."""


class Plane(NamedTuple):
    normal: tuple
    distance: float
    kind: int


class Node(NamedTuple):
    """Its children are a node by its number, or a leaf by -(1 + its number)."""
    plane: int
    children: tuple
    low: tuple
    high: tuple
    faces: range


class Leaf(NamedTuple):
    contents: int
    row: int
    low: tuple
    high: tuple
    marks: range


class Mapping(NamedTuple):
    """How a point gives a place on a texture: twice a direction and an offset."""
    across: tuple
    down: tuple
    texture: int
    flags: int


class Face(NamedTuple):
    plane: int
    side: int
    edges: range
    mapping: int
    styles: tuple
    light: int


class ClipNode(NamedTuple):
    """Its children are a clip node by its number, or contents below 0."""
    plane: int
    children: tuple


class Model(NamedTuple):
    low: tuple
    high: tuple
    origin: tuple
    heads: tuple
    numbered: int
    faces: range


class Texture(NamedTuple):
    name: str
    width: int
    height: int
    pictures: list


# the records of a lump: their layouts in BSP29 and in BSP2
LAYOUTS = {
    "planes": ("<3ffi", "<3ffi"), "vertices": ("<3f", "<3f"), "nodes": ("<i2h6h2H", "<i2i6f2I"), "mappings": ("<8f2i", "<8f2i"),
    "faces": ("<HhiHh4Bi", "<3i2i4Bi"), "clip_nodes": ("<i2h", "<i2i"), "leaves": ("<2i6h2H4B", "<2i6f2I4B"), "marks": ("<H", "<I"),
    "edges": ("<2H", "<2I"), "face_edges": ("<i", "<i"), "models": ("<9f7i", "<9f7i"),
}


class Level:
    """A level: a list for each lump of records; `entities`, `visibility` and `light` as bytes."""

    def __init__(self, data):
        self.data, self.is_wide = data, read_form(data)
        self.places = read_places(data)
        self.entities, self.visibility, self.light = (self.lump(name) for name in ("entities", "visibility", "light"))
        self.planes = [Plane(r[:3], r[3], r[4]) for r in self.records("planes")]
        self.vertices = list(self.records("vertices"))
        self.nodes = [Node(r[0], r[1:3], r[3:6], r[6:9], run(r[9:])) for r in self.records("nodes")]
        self.leaves = [Leaf(r[0], r[1], r[2:5], r[5:8], run(r[8:10])) for r in self.records("leaves")]
        self.mappings = [Mapping(r[:4], r[4:8], r[8], r[9]) for r in self.records("mappings")]
        self.faces = [Face(r[0], r[1], run(r[2:4]), r[4], r[5:9], r[9]) for r in self.records("faces")]
        self.clip_nodes = [ClipNode(r[0], self.clip_children(r[1:])) for r in self.records("clip_nodes")]
        self.marks = [r[0] for r in self.records("marks")]
        self.edges = list(self.records("edges"))
        self.face_edges = [r[0] for r in self.records("face_edges")]
        self.models = [Model(r[:3], r[3:6], r[6:9], r[9:13], r[13], run(r[14:])) for r in self.records("models")]
        self.textures = read_textures(self.lump("textures"))

    def lump(self, name):
        """The bytes of a lump."""
        at, length = self.places[name]
        return self.data[at:at + length]

    def records(self, name):
        """The records of a lump, as numbers in a row each."""
        layout, body = LAYOUTS[name][self.is_wide], self.lump(name)
        if len(body) % calcsize(layout):
            raise Fault(f"the lump of {name} has {len(body)} bytes, and a record {calcsize(layout)}")
        return iter_unpack(layout, body)

    def clip_children(self, children):
        """The children of a clip node. Of numbers of 16 bits those from -15 on are contents, and the rest are numbers without a
        sign, as engines of today read them."""
        return children if self.is_wide else tuple(child + 65536 if child < -15 else child for child in children)

    def value(self, plane, point):
        """How far a point is in front of a plane."""
        (a, b, c), distance, _ = self.planes[plane]
        return a * point[0] + b * point[1] + c * point[2] - distance

    def leaf_at(self, point, head=0, margin=0.0):
        """The number of the leaf to which a point leads, or None where a plane on the way is nearer than the margin."""
        child = head
        while child >= 0:
            node = self.nodes[child]
            value = self.value(node.plane, point)
            if abs(value) < margin:
                return None
            child = node.children[value < 0]
        return -1 - child

    def clip_at(self, point, head, margin=0.0):
        """What a clip hull has at a point, or None where a plane on the way is nearer than the margin."""
        child = head
        while child >= 0:
            node = self.clip_nodes[child]
            value = self.value(node.plane, point)
            if abs(value) < margin:
                return None
            child = node.children[value < 0]
        return child

    def corners(self, face):
        """The corners of a face in turn."""
        found = []
        for at in self.faces[face].edges:
            edge = self.face_edges[at]
            found.append(self.vertices[self.edges[abs(edge)][edge < 0]])
        return found

    def outward(self, face):
        """The plane of a face, so that it is seen from the front."""
        normal, distance, _ = self.planes[self.faces[face].plane]
        sign = -1 if self.faces[face].side else 1
        return tuple(sign * number for number in normal), sign * distance

    def row_at(self, place, width):
        """The bytes of the row that begins at a place of the visibility, and the place behind it."""
        row, at = bytearray(), place
        while len(row) < width:
            if at >= len(self.visibility) or not self.visibility[at] and at + 1 == len(self.visibility):
                raise Fault(f"the row at {place} ends past the visibility")
            if self.visibility[at]:
                row.append(self.visibility[at])
                at += 1
            else:
                row += bytes(self.visibility[at + 1])
                at += 2
        return bytes(row), at


def run(pair):
    """The numbers from a first one on, so many."""
    return range(pair[0], pair[0] + pair[1])


def read_form(data):
    """Whether the file is a BSP2."""
    if data[:4] == b"BSP2":
        return True
    if data[:4] != b"\x1d\0\0\0":
        raise Fault("it begins as neither BSP29 nor BSP2")
    return False


def read_places(data):
    """Where each lump begins, and how many bytes it has. Lumps lie in the file without gaps but for three bytes of zeros."""
    if len(data) < HEAD:
        raise Fault("the list of lumps is cut")
    places = {name: unpack_from("<2i", data, 4 + 8 * at) for at, name in enumerate(LUMPS)}
    end = HEAD
    for at, length in sorted(places.values()):
        if length < 0 or at < 0 or at + length > len(data):
            raise Fault(f"a lump of {length} bytes from {at} on is not in the file")
        if length and at < end:
            raise Fault(f"the lump at {at} begins before the one before it ends, at {end}")
        if length and (at > end + 3 or any(data[end:at])):
            raise Fault(f"between {end} and {at} stands no lump")
        end = max(end, at + length)
    if len(data) > end + 3 or any(data[end:]):
        raise Fault(f"from {end} on stands no lump")
    return places


def read_textures(body):
    """The textures of a lump; None where one is left out."""
    if not body:
        return []
    count, = unpack_from("<i", body)
    if count < 0 or 4 + 4 * count > len(body):
        raise Fault(f"the lump of textures cannot have {count}")
    return [None if at == -1 else read_texture(body, at) for at in unpack_from(f"<{count}i", body, 4)]


def read_texture(body, at):
    """The texture that begins at a place."""
    if not 0 <= at <= len(body) - 40:
        raise Fault(f"no texture can begin at {at}")
    name, width, height, *offsets = unpack_from("<16s6I", body, at)
    pictures = []
    for level, offset in enumerate(offsets):
        size = (width >> level) * (height >> level)
        if at + offset + size > len(body):
            raise Fault(f"picture {level} of the texture at {at} is not in the lump")
        pictures.append(body[at + offset:at + offset + size])
    return Texture(name.split(b"\0")[0].decode("latin-1"), width, height, pictures)


def load(name):
    """The level of a file."""
    with open(name, "rb") as file:
        return Level(file.read())
