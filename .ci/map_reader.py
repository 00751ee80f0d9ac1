"""Reads a map text for the check of levels for engines: what each brush holds, its planes, and how its textures lie. It shares nothing
with the tools, and expects a text without faults."""

from fractions import Fraction
from math import cos, radians, sin, sqrt
import re
from typing import NamedTuple

TOKEN = re.compile(r'//[^\n]*|"([^"]*)"|([^\s"]\S*)')
# what stands in the way of a player, and the boxes by which it is met
BLOCKING = ("solid", "sky", "clip")
BOXES = {1: ((-16, -16, -24), (16, 16, 32)), 2: ((-32, -32, -24), (32, 32, 64))}
# the directions of a texture without axes of its own: outward normal, across and down
ROOM = [((0, 0, 1), (1, 0, 0), (0, -1, 0)), ((0, 0, -1), (1, 0, 0), (0, -1, 0)), ((1, 0, 0), (0, 1, 0), (0, 0, -1)),
        ((-1, 0, 0), (0, 1, 0), (0, 0, -1)), ((0, 1, 0), (1, 0, 0), (0, 0, -1)), ((0, -1, 0), (1, 0, 0), (0, 0, -1))]


class Face(NamedTuple):
    """The outward normal of length 1 and the distance, the texture, and what gives a place on it: twice a direction and an offset."""
    normal: tuple
    distance: float
    texture: str
    mapping: tuple


class Brush(NamedTuple):
    contents: str
    faces: list


class Entity(NamedTuple):
    pairs: list
    brushes: list

    def value(self, key):
        return next((value for other, value in self.pairs if other == key), None)


def dot(a, b):
    return a[0] * b[0] + a[1] * b[1] + a[2] * b[2]


def contents_of(texture):
    """What a brush holds whose first face has a texture."""
    name = texture.lower()
    for begin, contents in (("*lava", "lava"), ("*slime", "slime"), ("*", "water"), ("sky", "sky")):
        if name.startswith(begin):
            return contents
    return "clip" if name == "clip" else "solid"


def load(name):
    """The entities of a file."""
    with open(name, encoding="latin-1") as file:
        return entities_of(file.read())


def entities_of(text):
    """The entities of a text."""
    tokens = [(quoted, word) for quoted, word in ((found[1], found[2]) for found in TOKEN.finditer(text)) if quoted is not None or word]
    entities, at = [], 0
    while at < len(tokens):
        entity, at = read_entity(tokens, at + 1)
        entities.append(entity)
    return entities


def read_entity(tokens, at):
    """The entity behind its first mark, and the place behind it."""
    pairs, brushes = [], []
    while tokens[at][1] != "}":
        if tokens[at][1] == "{":
            brush, at = read_brush(tokens, at + 1)
            brushes.append(brush)
        else:
            pairs.append((tokens[at][0], tokens[at + 1][0]))
            at += 2
    return Entity(pairs, brushes), at + 1


def read_brush(tokens, at):
    """The brush behind its first mark, and the place behind it."""
    faces = []
    while tokens[at][1] != "}":
        end = at + 16
        while tokens[end][1] not in ("(", "}"):
            end += 1
        faces.append(read_face([quoted if quoted is not None else word for quoted, word in tokens[at:end]]))
        at = end
    return Brush(contents_of(faces[0].texture), faces), at + 1


def read_face(words):
    """The face that some words spell."""
    first, middle, last = (tuple(map(Fraction, words[begin:begin + 3])) for begin in (1, 6, 11))
    (a, b, c), (d, e, f) = ([to - at for at, to in zip(middle, end)] for end in (first, last))
    across = b * f - c * e, c * d - a * f, a * e - b * d
    length = sqrt(dot(across, across))
    normal = tuple(float(number) / length for number in across)
    return Face(normal, float(dot(across, middle)) / length, words[15], mapping_of(normal, words[16:]))


def mapping_of(normal, words):
    """How a texture lies, by the words behind it."""
    if words[0] == "[":
        axes = [tuple(map(float, words[begin:begin + 4])) for begin in (1, 7)]
        scales = [float(word) or 1 for word in words[13:15]]
        return tuple((*(number / scale for number in axis[:3]), axis[3]) for axis, scale in zip(axes, scales))
    shift, scales = [float(word) for word in words[:2]], [float(word) or 1 for word in words[3:5]]
    _, across, down = max(ROOM, key=lambda row: dot(row[0], normal))
    turn = radians(float(words[2]))
    axes = [turned(axis, across, down, turn) for axis in (across, down)]
    return tuple((*(number / scale for number in axis), offset) for axis, scale, offset in zip(axes, scales, shift))


def turned(axis, across, down, turn):
    """A direction turned by an angle, in the plane of the two components that the directions of a texture have."""
    one, other = ([at for at in range(3) if way[at]][0] for way in (across, down))
    found = list(axis)
    found[one] = cos(turn) * axis[one] - sin(turn) * axis[other]
    found[other] = sin(turn) * axis[one] + cos(turn) * axis[other]
    return found


class Moved:
    """The brushes that stand in the way of a box, each with its planes so much farther out that the box meets the brush where its
    origin is behind all of them."""

    def __init__(self, brushes, hull):
        low, high = BOXES[hull]
        self.brushes = []
        for brush in brushes:
            if brush.contents in BLOCKING:
                self.brushes.append([(face.normal, face.distance - least(face.normal, low, high)) for face in brush.faces])

    def is_met(self, point, margin):
        """Whether a brush is met at a point; None where that is not sure for a plane is nearer than the margin."""
        sure = True
        for planes in self.brushes:
            deepest = max(dot(normal, point) - distance for normal, distance in planes)
            if deepest < -margin:
                return True
            sure = sure and deepest > margin
        return False if sure else None


def least(normal, low, high):
    """The least that a direction has at the corners of a box."""
    return sum(min(part * a, part * b) for part, a, b in zip(normal, low, high))
