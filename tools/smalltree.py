"""A tree of the brushes of one entity, for a level whose tree file has none of it."""

from brushes import STRENGTH, room
from bodies import Face, parted
from match import leading
from treefile import Leaf, Node, Plane, Tree


def built(bodies, bound):
    """The tree of some brushes, in which each leaf holds the strongest of what is there."""
    numbers, nodes, leaves, count = {}, [], [], 0
    waiting = [([(body.contents, parts_of(body, bound)) for body in bodies], None, None)]
    while waiting:
        parts, parent, side = waiting.pop()
        plane = candidate(parts)
        if parent is not None:
            nodes[parent][side] = len(nodes) if plane else -1 - len(leaves)
        if plane is None:
            contents = min((contents for contents, _ in parts), key=STRENGTH.index, default="empty")
            leaves.append(Leaf(contents, False, None if contents == "solid" else count))
            count += contents != "solid"
            continue
        nodes.append([numbers.setdefault(plane, len(numbers)), None, None])
        divided = [(contents, sides(faces, plane)) for contents, faces in parts]
        for side in 2, 1:
            waiting.append(([(contents, both[side - 1]) for contents, both in divided if both[side - 1]], len(nodes) - 1, side))
    return Tree(2, bound, [Plane(*plane) for plane in numbers], [Node(*node) for node in nodes], leaves, None, [])


def parts_of(body, bound):
    """The faces of a brush; those on the cube's walls part nothing."""
    return [Face(side.polygon, side.plane, None if side.node is None else True) for side in room(body.planes(), bound)]


def candidate(parts):
    """The plane on which a cell is parted next, or None: that of a face in it, if may be along an axis. A brush that fills the cell
    hides the weaker ones."""
    filling = [STRENGTH.index(contents) for contents, faces in parts if not any(face.node for face in faces)]
    hidden = min(filling, default=len(STRENGTH))
    planes = [face.plane for contents, faces in parts if STRENGTH.index(contents) < hidden for face in faces if face.node]
    plane = next((plane for plane in planes if plane[:3].count(0) == 2), planes[0] if planes else None)
    return plane and leading(plane)


def sides(faces, plane):
    """What of a brush is in front of a plane and behind it, each None where nothing is. Faces on the plane part nothing any more."""
    both = parted(faces, plane, None)
    return [part and [face._replace(node=None) if leading(face.plane) == plane else face for face in part] for part in both]
