"""Clip hulls: where the origin of a moving box can be, so that the box meets no brush that is in its way.

Such a brush is solid there with its faces moved outward by the box. A hull is found in the tree file, or made in clip_cells.py. Where
no open leaf of the level is near, all is solid: nobody comes there. So the outside of a sealed level takes no room. A node is its
plane and both children, the front first: a node by its number, or what is there."""

from typing import NamedTuple

from brushes import box, room, span
from treefile import HULLS

EMPTY, SOLID = -1, -2
# a plane for a node that parts nothing
ANY = (1, 0, 0, 0)


class Moved(NamedTuple):
    """A brush with its faces moved outward: their planes, turned outward, and a box around it."""
    planes: list
    low: tuple
    high: tuple


def moved(body, hull, bound):
    """A brush as it is in the way of the box of a hull."""
    low, high = HULLS[hull]
    planes = [plane[:3] + (plane[3] - span(plane[:3] + (0,), low, high)[0],) for plane in dict.fromkeys(body.planes())]
    sides = {(axis, plane[axis] > 0) for plane in planes if plane[:3].count(0) == 2 for axis in range(3) if plane[axis]}
    if len(sides) < 6:
        return Moved(planes, *box({corner for side in room(planes, bound) for corner in side.polygon}))
    return Moved(planes, *(tuple(a - b for a, b in zip(one, other)) for one, other in ((body.low, high), (body.high, low))))


def simple(nodes):
    """The nodes that part something, from the first on. Each node stands before those below it."""
    worth = {}
    for number in reversed(range(len(nodes))):
        front, back = (worth.get(child, child) for child in nodes[number][1:])
        worth[number] = front if front == back else number
        nodes[number][1:] = front, back
    root = worth[0]
    if root < 0:
        return [(ANY, root, root)]
    kept = sorted(reached(nodes, root))
    names = {number: place for place, number in enumerate(kept)}
    return [(nodes[number][0], *(names.get(child, child) for child in nodes[number][1:])) for number in kept]


def reached(nodes, root):
    """The numbers of the nodes below one, with itself."""
    found, waiting = set(), [root]
    while waiting:
        number = waiting.pop()
        if number >= 0 and number not in found:
            found.add(number)
            waiting += nodes[number][1:]
    return found


def of_section(tree, open_boxes):
    """The nodes of a hull that a tree file has, with what is near no open leaf filled."""
    if not tree.nodes:
        return simple([[ANY] + [EMPTY if tree.leaves[0].contents == "empty" else SOLID] * 2])
    near, nodes = {0: open_boxes}, []
    for number, (plane, *children) in enumerate(tree.nodes):
        sides, ends = parted(near.pop(number), tree.planes[plane]), []
        for child, boxes in zip(children, sides):
            if child >= 0:
                near[child] = boxes
                ends.append(child)
            else:
                ends.append(EMPTY if tree.leaves[-1 - child].contents == "empty" and boxes else SOLID)
        nodes.append([tuple(tree.planes[plane]), *ends])
    return simple(nodes)


def parted(boxes, plane):
    """Those boxes that reach in front of a plane, and those that reach behind it."""
    spans = [(box, *span(plane, box.low, box.high)) for box in boxes]
    return [box for box, _, most in spans if most > 0], [box for box, least, _ in spans if least < 0]
