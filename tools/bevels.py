"""Adds bevel faces to the brushes of a map that stop a player: faces along the axes at the brush's farthest corners.

A clip hull is made of brushes whose faces are moved outward by the player's box. Where a brush is slanted, its moved faces meet far
from it, and the player is stopped by nothing that is seen: by a lip at the top of a ramp. A bevel face, moved too, cuts
that off. It touches the brush in a corner or an edge, so the brush is as it was."""

from fractions import Fraction
from typing import NamedTuple

from bodies import cube
from corners import value
import mapfaces
from maptext import EXTENT
from points import decimal
from polygons import turned

# the unit in which a bevel is rounded outward, as a part of a unit of the map
PARTS = 1000
# the points of a face towards each end of each axis, of which X is where it stands
POINTS = {
    (0, -1): "( X 0 0 ) ( X 1 0 ) ( X 0 1 )", (0, 1): "( X 0 0 ) ( X 0 1 ) ( X 1 0 )",
    (1, -1): "( 0 X 0 ) ( 0 X 1 ) ( 1 X 0 )", (1, 1): "( 0 X 0 ) ( 1 X 0 ) ( 0 X 1 )",
    (2, -1): "( 0 0 X ) ( 1 0 X ) ( 0 1 X )", (2, 1): "( 0 0 X ) ( 0 1 X ) ( 1 0 X )",
}
# how a texture lies on such a face, in both forms
STANDARD = ("0 0 0 1 1",) * 3
VALVE = ("[ 0 1 0 0 ] [ 0 0 -1 0 ] 0 1 1", "[ 1 0 0 0 ] [ 0 0 -1 0 ] 0 1 1", "[ 1 0 0 0 ] [ 0 -1 0 0 ] 0 1 1")


class Bevelled(NamedTuple):
    """The parts of a text with bevels, and how many faces were added, to how many brushes."""
    parts: list
    faces: int
    brushes: int


def with_bevels(text: str) -> str:
    """The text of a map with bevel faces. Raises `maptext.NoMap`."""
    return b"".join(bevelled(text.encode(errors="surrogateescape")).parts).decode(errors="surrogateescape")


def bevelled(text):
    """The text with bevel faces, each before the bracket that closes its brush. Lines keep their numbers, and all else is as it
    was. Raises `maptext.NoMap`."""
    parts, at, faces, brushes = [], 0, 0, 0
    for entity in mapfaces.entities(text):
        for brush in entity.brushes:
            added = bevels(brush) if brush.contents() in mapfaces.BLOCKING else []
            if added:
                parts += [text[at:brush.closing], *added]
                at, faces, brushes = brush.closing, faces + len(added), brushes + 1
    return Bevelled(parts + [text[at:]], faces, brushes)


def bevels(brush):
    """The faces that a brush lacks, as they are written."""
    sides = {(axis, way) for axis in range(3) for way in (-1, 1)} - {side_of(face.plane) for face in brush.faces}
    return [written(brush.faces[0], side, place) for side, place in places(brush, sorted(sides)) if abs(place) < PARTS * EXTENT]


def side_of(plane):
    """The axis along which a plane's normal lies, and whether it points to the axis' low or high end; or None."""
    along = [axis for axis in range(3) if plane[axis]]
    return (along[0], 1 if plane[along[0]] > 0 else -1) if len(along) == 1 else None


def places(brush, sides):
    """How far a brush reaches to some sides, each with its place in thousandths, rounded outward; none where it has no room."""
    if not sides:
        return
    points = {corner for face in cube(EXTENT, [turned(face.plane, False) for face in brush.faces]) for corner in face.polygon}
    for axis, way in sides if points else ():
        yield (axis, way), way * max(-(-PARTS * way * point[axis] // point[3]) for point in points)


def written(first, side, place):
    """A face towards a side at a place, with the texture of a brush's first face."""
    mapping = (STANDARD if len(first.mapping) == mapfaces.STANDARD else VALVE)[side[0]]
    points = POINTS[side].replace("X", decimal(Fraction(place, PARTS), 3))
    return b"%b %b %b " % (points.encode(), first.spelled(), mapping.encode())
