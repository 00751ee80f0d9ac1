"""Damages a level for engines in one place at a time, for a check that has to find it. Only BSP29 is damaged."""

import re
from struct import calcsize, pack_into, unpack_from

from bsp_reader import LAYOUTS, Level, SOLID

# how far a player who falls is moved at a time
STEP = 1 / 8



class Copy:
    """A copy of a level's bytes, of which records are changed."""

    def __init__(self, data):
        self.data, self.level = bytearray(data), Level(data)

    def change(self, lump, number, change):
        """Gives a record of a lump other numbers: `change` has the old ones, and gives the new ones."""
        layout = LAYOUTS[lump][self.level.is_wide]
        at = self.level.places[lump][0] + number * calcsize(layout)
        pack_into(layout, self.data, at, *change(list(unpack_from(layout, self.data, at))))

    def done(self):
        return bytes(self.data)


def with_item(at, change):
    """Changes one number of a record."""
    def changed(numbers):
        numbers[at] = change(numbers[at])
        return numbers
    return changed


def swapped(one, other):
    """Changes a record so that two of its numbers are swapped."""
    def changed(numbers):
        numbers[one], numbers[other] = numbers[other], numbers[one]
        return numbers
    return changed


def longest(level, faces):
    """The face with most edges, of some."""
    return max(faces, key=lambda face: len(level.faces[face].edges))


def leaf_with_marks(level):
    return max(range(len(level.leaves)), key=lambda leaf: len(level.leaves[leaf].marks))


def leaves_of_rows(level):
    """Two leaves that have different rows."""
    numbered = range(1, 1 + level.models[0].numbered)
    first = numbered[0]
    other = next((leaf for leaf in numbered if level.leaves[leaf].row != level.leaves[first].row), None)
    return first, other


def node_before_leaf(level):
    """A node one of whose children is a leaf with marks, and the other one solid."""
    for number, node in enumerate(level.nodes):
        if -1 in node.children and any(child < -1 and level.leaves[-1 - child].marks for child in node.children):
            return number
    return None


def floor_node(level, head):
    """The node of a hull on whose plane a player stands who comes in at the first spot, or None."""
    found = re.search(rb'info_player_start"\s*"origin" "(\S+) (\S+) (\S+)"', level.entities)
    if found is None:
        return None
    x, y, z = map(float, found.groups())
    while z > -4096 and level.clip_at((x, y, z), head) != SOLID:
        z -= STEP
    child = head
    while child >= 0:
        plane, children = level.clip_nodes[child]
        value = level.value(plane, (x, y, z))
        if -STEP <= value < 0:
            return child
        child = children[value < 0]
    return None


def plane_of(level, node):
    """The plane of a node of a hull, or None where there is no such node."""
    return None if node is None else level.clip_nodes[node][0]


def planted(data, lump, number, change):
    """The bytes with one record changed, or None where there is no such record."""
    if number is None:
        return None
    copy = Copy(data)
    copy.change(lump, number, change)
    return copy.done()


def plants(data, rng):
    """What is done to the level, and its bytes then; one after another."""
    level = Level(data)
    face, leaf, node = longest(level, level.models[0].faces), leaf_with_marks(level), node_before_leaf(level)
    corner = max(level.edges[abs(level.face_edges[level.faces[face].edges[0]])])
    yield "the side of a face is swapped", planted(data, "faces", face, with_item(1, lambda side: 1 - side))
    yield "a face has another plane", planted(data, "faces", face, with_item(0, lambda plane: (plane + 1) % len(level.planes)))
    yield "a face has an edge less", planted(data, "faces", face, with_item(3, lambda count: count - 1))
    yield "two edges of a face are swapped", swap_edges(data, level, face)
    yield "an edge is gone the other way", planted(data, "face_edges", level.faces[face].edges[0], with_item(0, lambda edge: -edge))
    yield "a corner is moved by a unit", planted(data, "vertices", corner, with_item(rng.randrange(3), lambda number: number + 1))
    yield "a mark is dropped", planted(data, "leaves", leaf, with_item(9, lambda count: count - 1))
    yield "a mark is another face's", planted(data, "marks", level.leaves[leaf].marks[0], with_item(0, lambda mark: mark + 1))
    first, other = leaves_of_rows(level)
    if level.visibility:
        yield "a leaf has another one's row", None if other is None else planted(
            data, "leaves", first, with_item(1, lambda _: level.leaves[other].row))
        yield "a bit of a row is lost", bit_lost(data, level)
    yield "a leaf holds water", planted(data, "leaves", leaf, with_item(0, lambda contents: -3 if contents != -3 else -4))
    yield "the box of a leaf is too small", planted(data, "leaves", leaf, with_item(5, lambda high: high - 16))
    yield "the children of a node are swapped", planted(data, "nodes", node, swapped(1, 2))
    yield "a node has another plane", planted(data, "nodes", node, with_item(0, lambda plane: (plane + 1) % len(level.planes)))
    yield "a node lacks a face", planted(data, "nodes", max(range(len(level.nodes)), key=lambda at: len(level.nodes[at].faces)),
                                         with_item(10, lambda count: count - 1))
    for hull in (1, 2):
        head = level.models[0].heads[hull]
        yield f"the first node of hull {hull} has its children swapped", planted(data, "clip_nodes", head, swapped(1, 2))
        floor = floor_node(level, head)
        # what is below a node lies on one side of its plane, so that plane parts nothing there
        yield f"a node of hull {hull} has the plane of the first", planted(
            data, "clip_nodes", None if floor == head else floor, with_item(0, lambda _, plane=plane_of(level, head): plane))
        yield f"a plane of hull {hull} is moved by a quarter", planted(
            data, "planes", plane_of(level, floor), with_item(3, lambda far: far - 0.25))
    yield "a hull begins at the other one's head", planted(data, "models", 0, with_item(11, lambda _: level.models[0].heads[1]))
    yield "a plane is moved by half a unit", planted(data, "planes", level.nodes[0].plane, with_item(3, lambda far: far + 0.5))
    yield "a texture is moved by two texels", planted(data, "mappings", level.faces[face].mapping, with_item(3, lambda far: far + 2))
    yield "a letter of the entities is lost", letter_lost(data, level)
    yield "four bytes stand behind the last lump", data + b"lost"


def swap_edges(data, level, face):
    """The bytes with the first two edges of a face swapped."""
    copy, first = Copy(data), level.faces[face].edges[0]
    for at in (0, 1):
        copy.change("face_edges", first + at, lambda _, edge=level.face_edges[first + 1 - at]: [edge])
    return copy.done()


def bit_lost(data, level):
    """The bytes with the lowest bit of the first byte of the visibility that is not 0 lost."""
    at = level.places["visibility"][0]
    found = bytearray(data)
    for place in range(len(level.visibility)):
        byte = level.visibility[place]
        if byte & byte - 1:
            found[at + place] = byte & byte - 1
            return bytes(found)
    return None


def letter_lost(data, level):
    """The bytes with a letter of the first class name changed."""
    at = data.find(b"classname", level.places["entities"][0])
    return data[:at + 13] + b"?" + data[at + 14:] if at >= 0 else None
