"""Whether a tree was made from the brushes of a map's world."""

from brushes import STRENGTH, drawn
from corners import value
from mapfaces import CLIP
from polygons import turned


def leading(plane):
    """The plane, turned so that the first part of its normal that is not 0 is above 0."""
    return turned(plane, next(part for part in plane if part) > 0)


def difference(tree, world, bodies):
    """What tells that a tree is not of a world, whose bodies are given too, or None. The planes of a tree are those of the brushes in
    the order of the text, and in the middle of a brush there is nothing weaker."""
    faces = (face for brush in world.brushes if brush.contents() != CLIP for face in brush.faces)
    planes = list(dict.fromkeys(leading(face.plane) for face in faces))
    if len(planes) != len(tree.planes):
        return f"it has {len(tree.planes)} planes, and the brushes of the map's world have {len(planes)}"
    for number, (own, other) in enumerate(zip(tree.planes, planes)):
        if tuple(own) != other:
            return f"its plane {number} is another one than the map has there"
    for body in drawn(bodies):
        found = tree.leaves[leaf_at(tree, body.middle)].contents
        if STRENGTH.index(found) > STRENGTH.index(body.contents):
            return f"in the middle of brush {body.number}, which is {body.contents}, it has {found}"
    return None


def leaf_at(tree, corner):
    """The leaf to which a point leads, which is given by four numbers."""
    child = tree.root()
    while child >= 0:
        plane, front, back = tree.nodes[child]
        child = front if value(tree.planes[plane], corner) >= 0 else back
    return -1 - child
