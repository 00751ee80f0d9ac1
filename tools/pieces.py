"""The surfaces before rock by the pieces of the surface that a tree file has. Each has the brush and the face to which it belongs, and, if
the map is known, the texture of that face and the sides at which the face ends."""

from collections import defaultdict

import corners
import groups
from mapfaces import CLIP, entities
from match import leading
from origins import plain
from patterns import FILLED
import surfaces
from surfaces import Owner, Surface


def brushes_of(tree, pieces, text):
    """The brushes of a map's world to which pieces belong, or those with the brushes of groups among them, as `qmlook world` moves them;
    None if the pieces are of neither. Raises `maptext.NoMap`."""
    for world in entities(text)[0], entities(b"".join(groups.moved(text).parts))[0]:
        brushes = [brush for brush in world.brushes if brush.contents() != CLIP]
        if all(belongs(tree, piece, brushes) for piece in pieces):
            return brushes
    return None


def belongs(tree, piece, brushes):
    """Whether a piece lies on the plane of its face of a brush."""
    if piece.brush >= len(brushes) or piece.face >= len(brushes[piece.brush].faces):
        return False
    return leading(brushes[piece.brush].faces[piece.face].plane) == leading(tree.named_plane(piece.plane))


def seen(tree, pieces, brushes=None, planes=()):
    """What is seen of each leaf that has points in front of some planes, with the pieces in place of its surfaces before rock. `brushes` are
    those of the map, if it is known."""
    found = defaultdict(list)
    for piece in pieces:
        found[piece.leaf].append(surface(tree, piece, brushes))
    # leaves that were filled are no rock, so no piece is before them
    apart = tree._replace(leaves=[leaf._replace(contents=FILLED) if leaf.filled else leaf for leaf in tree.leaves])
    return {leaf: what._replace(surfaces=[*filter(None, map(kept, what.surfaces)), *found[leaf]])
            for leaf, what in surfaces.seen(apart, planes).items()}


def kept(other):
    """A surface that is not before rock; of one before a filled leaf, before something solid; or None."""
    return other._replace(beyond="solid") if other.beyond == FILLED else None if other.beyond == "solid" else other


def surface(tree, piece, brushes):
    """A piece as a surface."""
    polygon, plane = piece.polygon[::-1], tree.named_plane(piece.plane)
    texture, ends = None, ()
    if brushes is not None:
        brush = brushes[piece.brush]
        texture, ends = plain(brush.faces[piece.face].texture), ends_of(polygon, brush, plane)
    return Surface(polygon, turned_to(plane, polygon), "solid", Owner(piece.brush, piece.face, texture, ends))


def turned_to(plane, polygon):
    """A plane, turned to the side from which a polygon on it goes round against the clock."""
    across = max(range(3), key=lambda axis: abs(plane[axis]))
    one, other = (across + 1) % 3, (across + 2) % 3
    (*a, u), (*b, v), (*c, w) = polygon[:3]
    # twice the area of the first three corners along the axis, times their weights
    area = ((b[one] * u - a[one] * v) * (c[other] * u - a[other] * w) - (b[other] * u - a[other] * v) * (c[one] * u - a[one] * w))
    return tuple(plane) if (area > 0) == (plane[across] > 0) else tuple(-part for part in plane)


def ends_of(polygon, brush, plane):
    """Of each side of a polygon on the plane of a face, from a corner to the next one, whether the face of the brush ends there: whether
    the side lies on the plane of another face."""
    found = [False] * len(polygon)
    for face in brush.faces:
        if leading(face.plane) != leading(plane):
            on_plane = [value == 0 for value in corners.values(polygon, face.plane)]
            found = [was or (on_plane[at] and on_plane[at + 1 - len(polygon)]) for at, was in enumerate(found)]
    return found
