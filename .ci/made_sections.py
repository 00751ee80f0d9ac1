#!/usr/bin/env python3
"""Makes tree files with the sections that a level for engines takes, for levels whose brushes are boxes.

    made_sections.py hull MAP N        prints a map whose tree is clip hull N of a map
    made_sections.py model MAP ENTITY  prints a map whose tree is that of an entity
    made_sections.py add TREE OUT [KIND:TREE | 3:ENTITY:TREE | 4].. adds sections to a tree file; 4 are the faces of one cube"""

from math import gcd
from pathlib import Path
from struct import pack
import sys

sys.path.insert(0, str(Path(__file__).resolve().parent.parent / "tools"))

from made_trees import random_tree, written
import map_reader
import treefile

# the points of the faces of a box; X is where one stands
POINTS = (("X 0 0", "X 1 0", "X 0 1"), ("X 0 0", "X 0 1", "X 1 0"), ("0 X 0", "0 X 1", "1 X 0"), ("0 X 0", "1 X 0", "0 X 1"),
          ("0 0 X", "1 0 X", "0 1 X"), ("0 0 X", "0 1 X", "1 0 X"))


def ends(brush):
    """The low and the high end of a box."""
    places = {}
    for face in brush.faces:
        axis = next(axis for axis in range(3) if face.normal[axis])
        places[axis, face.normal[axis] > 0] = int(face.distance * face.normal[axis])
    return [[places[axis, is_high] for axis in range(3)] for is_high in (False, True)]


def printed(brushes, box):
    """A map of boxes, larger by another one."""
    print("{")
    for brush in brushes:
        low, high = ([a - b for a, b in zip(end, other)] for end, other in zip(ends(brush), box[::-1]))
        faces = zip(POINTS, (place for both in zip(low, high) for place in both))
        print("{", *(f"( {' ) ( '.join(points).replace('X', str(place))} ) x 0 0 0 1 1" for points, place in faces), "}", sep="\n")
    print("}")


def bytes_of(name):
    """The bytes of a tree without rows."""
    return written(treefile.load(name)._replace(rows=None, sections=[]))


def stored(models, count=None):
    """The bytes of a section with brush models: each the number of its entity, the low and the high end of its box, the numbers of its
    leaves, and the bytes of its tree. Where a count is given the section says that there are so many."""
    parts = [pack("<I", len(models) if count is None else count)]
    for entity, low, high, leaves, data in models:
        parts += [pack(f"<Q6iQ{len(leaves)}QQ", entity, *low, *high, len(leaves), *leaves, len(data)), data]
    return b"".join(parts)


def model(entity, name):
    """The bytes of a section with one model."""
    return stored([(entity, (0, 0, 0), (0, 0, 0), (), bytes_of(name))])


def stored_faces(pieces, count=None):
    """The bytes of a section with faces: each a leaf, a brush, a face, and corners of three numbers of planes. Where a count is given
    the section says that there are so many."""
    parts = [pack("<Q", len(pieces) if count is None else count)]
    for leaf, brush, face, corners in pieces:
        parts.append(pack(f"<QQII{3 * len(corners)}q", leaf, brush, face, len(corners), *(number for corner in corners for number in corner)))
    return b"".join(parts)


def cube_faces(tree):
    """The bytes of the faces of the cube of samples/cube.map, whose planes are in the order of its faces."""
    pieces = []
    for face in range(6):
        axis, is_high = face // 2, face % 2
        outside = [32, 32, 32]
        outside[axis] = 96 if is_high else -32
        one, other = (axis + 1) % 3, (axis + 2) % 3
        corners = [(2 * one + a, 2 * other + b) for a, b in ((0, 0), (1, 0), (1, 1), (0, 1))]
        corners = corners[::-1] if is_high else corners
        pieces.append((tree.leaf_at(outside), 0, face, [(face, *both) for both in corners]))
    return stored_faces(pieces)


def sections(tree, words):
    """The sections that some words ask for."""
    for word in words:
        kind, *rest = word.split(":")
        data = cube_faces(tree) if kind == "4" else model(int(rest[0]), rest[1]) if kind == "3" else bytes_of(rest[0])
        yield treefile.Section(int(kind), data)


def hulls(draw):
    """The sections of files in the largest world: two clip hulls; one of these; and one that is none beside one that is."""
    bound = treefile.BOUNDS[-1]

    def plain(count, version=2, bound=bound, rows=False, sections=()):
        return random_tree(draw, count, rows, version, bound, sections)

    good = plain(60)
    yield [(1, good), (2, plain(25))]
    yield [(1, plain(0)), (2, plain(1))]
    yield [(1, good), (7, b"abc")]
    yield [(2, good)]
    odd = [plain(9, rows=True), plain(9, sections=[(7, b"")]), plain(9, version=1), plain(9, bound=treefile.BOUNDS[0]),
           plain(9) + b"x", plain(9)[:-1], b""]
    for number, data in enumerate(odd):
        yield [(1, data), (2, good)] if number % 2 else [(1, good), (2, data)]


def model_sections(draw, numbered, bound=treefile.BOUNDS[-1]):
    """The bytes of sections with brush models, for a file with so many numbered leaves, 3 or more: first some that are good, and then
    such as are odd in one place."""

    def plain(count, version=2, bound=bound, rows=False, sections=()):
        return random_tree(draw, count, rows, version, bound, sections)

    small, far = plain(3), 2 ** 31
    good = [(1, (0, 0, 0), (64, 64, 64), (0,), plain(25)), (2, (-far,) * 3, (far - 1,) * 3, (0, 1, numbered - 1), plain(0)),
            (9, (5, 6, 7), (5, 6, 7), (), plain(1)), (2 ** 64 - 1, (-3, -2, -1), (1, 2, 3), range(numbered), plain(60))]
    yield stored(good)
    yield stored([])
    yield stored(good[1:2])
    for at, entity in (0, 0), (1, 1), (2, 1), (3, 0), (3, 9):
        yield stored([*good[:at], (entity, *good[at][1:]), *good[at + 1:]])
    for axis in range(3):
        low = tuple(8 * (axis == other) for other in range(3))
        yield stored([(3, low, (7, 7, 7), (1,), small)])
        yield stored([(3, low, (8, 8, 8), (1,), small)])
    for leaves in (numbered,), (0, 0), (1, 0), (0, 1, 1), (2 ** 64 - 1,), (2 ** 63,), (0, numbered):
        yield stored([good[0], (3, (0, 0, 0), (0, 0, 0), leaves, small)])
    for data in (plain(4, rows=True), plain(4, sections=[(7, b"")]), plain(4, version=1), plain(4, bound=treefile.BOUNDS[0]),
                 small + b"x", small[:-1], b""):
        yield stored([good[0], (3, (0, 0, 0), (0, 0, 0), (0, 2), data)])
    yield stored(good) + b"x"
    yield stored(good)[:-1]
    for count in 0, 3, 5, 2 ** 32 - 1:
        yield stored(good, count)
    yield b""
    # what is odd in a model that is cut off is not looked at
    yield stored([(0, *good[0][1:])])[:-1]
    yield pack("<IQ6iQ", 1, 0, *(9,) * 6, 2 ** 61) + bytes(80)
    yield pack("<IQ6iQQ", 1, 5, *(9,) * 6, 0, 2 ** 64 - 1) + bytes(80)


def slanted_planes(draw):
    """Planes anyhow: of numbers up to their bounds, and with normals that differ by 1 in one number, so that three of them nearly have
    one direction."""
    found = [(1, 0, 0, 0), (0, 1, 0, 2 ** 44), (0, 0, 1, -(2 ** 44)), (2 ** 26, 2 ** 26 - 1, 2 ** 26 - 1, 2 ** 44)]
    for _ in range(4):
        normal = [draw.randrange(1, 2 ** draw.choice((3, 12, 26))) for _ in range(3)]
        for other in (normal, [normal[0] + 1, *normal[1:]], [*normal[:2], normal[2] + 1], [2 * number + 1 for number in normal]):
            if max(other) <= 2 ** 26:
                found.append((*other, draw.randrange(-(2 ** 44), 2 ** 44) | 1))
    return [treefile.Plane(*plane) for plane in found if gcd(*plane) == 1]


def face_sections(draw, tree):
    """The bytes of sections with faces, for a tree: first some that are good, and then such as are odd in one place."""
    corners = [(own, before, after) for own in range(-6, len(tree.planes)) for before in range(-6, len(tree.planes))
               for after in range(-6, len(tree.planes)) if treefile.meeting(*map(tree.named_plane, (own, before, after)))[3]]
    some, leaves, far = draw.sample(corners, 12), len(tree.leaves), 2 ** 63
    good = [(0, 0, 0, some[:3]), (leaves - 1, 2 ** 64 - 1, 2 ** 32 - 1, some[3:8]), (0, 0, 0, some[8:])]
    yield stored_faces(good)
    yield stored_faces([])
    yield stored_faces([(leaf % leaves, leaf, 3, draw.choices(corners, k=3)) for leaf in range(150)])
    for leaf in leaves, far, 2 * far - 1:
        yield stored_faces([good[0], (leaf, 0, 0, some)])
    for count in range(3):
        yield stored_faces([good[0], (0, 0, 0, some[:count]), good[1]])
    for at in range(3):
        for number in -7, len(tree.planes), far - 1, -far, -2 ** 32:
            odd = (*some[0][:at], number, *some[0][at + 1:])
            yield stored_faces([good[0], (0, 0, 0, [*some[1:4], odd]), good[1]])
    one, other, _ = some[0]
    for odd in (one, one, other), (one, other, one), (other, one, one), (-1, other, -2), (-3, -4, other):
        yield stored_faces([good[0], (0, 0, 0, [odd, *some[1:4]])])
    yield stored_faces(good) + b"x"
    yield stored_faces(good)[:-1]
    for count in 0, 2, 4, far, 2 * far - 1:
        yield stored_faces(good, count)
    yield b""
    # what is odd in a piece that is cut off is not looked at
    yield stored_faces([(leaves, 0, 0, some)])[:-1]
    yield pack("<QQQII", 1, 0, 0, 0, 2 ** 32 - 1) + bytes(80)


def main():
    what, name, *words = sys.argv[1:]
    if what == "add":
        tree = treefile.load(name)
        Path(words[0]).write_bytes(written(tree._replace(sections=list(sections(tree, words[1:])))))
        return
    entity = map_reader.load(name)[int(words[0]) if what == "model" else 0]
    printed(entity.brushes, map_reader.BOXES[int(words[0])] if what == "hull" else ((0, 0, 0), (0, 0, 0)))


if __name__ == "__main__":
    main()
