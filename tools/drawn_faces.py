"""The faces of a level that are drawn: the parts of brush faces where what the leaves hold changes.

A face of a brush is drawn where a leaf on its inner side holds what the brush does, and one on its outer side holds something weaker
that is not solid. Each part lies on one node. It goes on as far as that holds: a node further down cuts it where it does not hold on
one side alone. Where faces of several brushes lie on one another, the first brush has the face."""

from collections import defaultdict
from typing import NamedTuple

from brushes import STRENGTH, span
import corners
from sections import BadSection

FILLED = "filled"
LIQUID = frozenset(("water", "slime", "lava"))


class Drawn(NamedTuple):
    """A part of a face that is drawn: its node, and whether it is seen from behind the node's plane; its face, as the map has it;
    and its polygon, which goes round with the clock as seen."""
    node: int
    is_behind: bool
    face: object
    polygon: list


class Tree(NamedTuple):
    """A tree, with the number of each plane, and at each child the kinds of the leaves below it: what they hold, or `filled`."""
    tree: object
    numbers: dict
    below: list


def known(tree):
    """A tree, with what is asked of it often."""
    kinds = [frozenset((FILLED if leaf.filled else leaf.contents,)) for leaf in tree.leaves]
    below = [None] * len(tree.nodes) + kinds[::-1]
    for number in reversed(range(len(tree.nodes))):
        _, front, back = tree.nodes[number]
        below[number] = below[front] | below[back]
    return Tree(tree, {plane: number for number, plane in enumerate(tree.planes)}, below)


def drawn(tree, bodies):
    """What is drawn of some brushes, whose faces are those of a tree."""
    known_tree, found = known(tree), []
    sharing = defaultdict(list)
    for body in bodies:
        for plane in {body.faces[number].plane for number in body.polygons}:
            sharing[body.contents, plane].append(body)
    for body in bodies:
        start = within(tree, body)
        for number, polygon in body.polygons.items():
            face = body.faces[number]
            found += parts_of(known_tree, start, body, face, polygon, sharing[body.contents, face.plane])
    return found


def of_pieces(tree, listed, pieces):
    """What is drawn of the solid brushes of a tree's list, by the pieces of their faces that a tree file has."""
    above = {child: (number, is_back) for number, node in enumerate(tree.nodes) for is_back, child in enumerate(node[1:])}
    for piece in pieces:
        node, is_behind = above.get(-1 - piece.leaf, (None, 0))
        while node is not None and tree.nodes[node].plane != piece.plane:
            node, is_behind = above.get(node, (None, 0))
        if node is None or piece.brush >= len(listed) or piece.face >= len(listed[piece.brush].faces):
            raise BadSection("a piece of a face is of no node or no brush")
        yield Drawn(node, bool(is_behind), listed[piece.brush].faces[piece.face], piece.polygon)


def within(tree, body):
    """The child in which all of a brush lies, off its planes, so far down as a box tells."""
    child = tree.root()
    while child >= 0:
        plane, front, back = tree.nodes[child]
        least, most = span(tree.planes[plane], body.low, body.high)
        if least <= 0 <= most:
            return child
        child = front if least > 0 else back
    return child


def meet(one, other):
    """Whether the boxes of two brushes meet."""
    return all(a <= d and c <= b for a, b, c, d in zip(one.low, one.high, other.low, other.high))


def parts_of(known_tree, start, body, face, polygon, sharing):
    """What is drawn of a face of a brush that lies below a child; `sharing` are the brushes with faces on the same plane."""
    inner = frozenset((body.contents,))
    outer = frozenset(STRENGTH[STRENGTH.index(body.contents) + 1:])
    is_behind = face.plane not in known_tree.numbers
    number = known_tree.numbers.get(tuple(-part for part in face.plane) if is_behind else face.plane)
    for node, piece in on_nodes(known_tree, start, polygon, number, body.contents):
        _, front, back = known_tree.tree.nodes[node]
        without, inside = (back, front) if is_behind else (front, back)
        for part in kept(known_tree, without, piece, outer):
            for own in kept(known_tree, inside, part, inner):
                for rest in left(own, body, sharing, face.plane):
                    yield Drawn(node, is_behind, face, rest)
                    if body.contents in LIQUID:
                        yield Drawn(node, not is_behind, face, rest[::-1])


def on_nodes(known_tree, child, polygon, number, contents):
    """The parts of a polygon at the nodes on the plane of that number, each with its node. What is below a node where no leaf holds
    these contents, or all do, is passed over."""
    tree, _, below = known_tree
    waiting = [(child, polygon)]
    while waiting:
        child, polygon = waiting.pop()
        if child < 0 or contents not in below[child] or len(below[child]) == 1:
            continue
        plane, front, back = tree.nodes[child]
        if plane == number:
            yield child, polygon
        else:
            waiting += [(below_it, part) for below_it, part in zip((front, back), divided(polygon, tree.planes[plane])) if part]


def divided(polygon, plane):
    """What a plane leaves in front and behind, each None where nothing is there."""
    found = corners.values(polygon, plane)
    if min(found) >= 0:
        return polygon, None
    return (None, polygon) if max(found) <= 0 else corners.parted(polygon, found)


def kept(known_tree, child, polygon, wanted):
    """The parts of a polygon that lie at leaves of some kinds. A node that does not part these from others cuts nothing."""
    tree, _, below = known_tree
    found, waiting = [], [(child, polygon, None)]
    while waiting:
        child, polygon, first = waiting.pop()
        if first is not None:
            if len({is_kept for is_kept, _ in found[first:]}) == 1:
                found[first:] = [(found[first][0], polygon)]
        elif below[child] <= wanted:
            found.append((True, polygon))
        elif wanted.isdisjoint(below[child]):
            found.append((False, polygon))
        else:
            plane, front, back = tree.nodes[child]
            before, behind = divided(polygon, tree.planes[plane])
            if before and behind:
                waiting += [(None, polygon, len(found)), (back, behind, None), (front, before, None)]
            else:
                waiting.append((front if before else back, polygon, None))
    return [polygon for is_kept, polygon in found if is_kept]


def left(polygon, body, sharing, plane):
    """The parts of a polygon on the plane of a brush's face that are in no brush before it; `sharing` are those with such a face."""
    parts = [polygon]
    for other in sharing:
        if other.number >= body.number:
            break
        if meet(body, other):
            others = [side for side in other.planes() if side != plane]
            parts = [part for whole in parts for part in outside(whole, others)]
    return parts


def outside(polygon, planes):
    """The parts of a polygon that are in front of one of some planes: uncut where nothing is behind them all."""
    parts, rest = [], polygon
    for plane in planes:
        front, rest = corners.split(rest, plane)
        if front:
            parts.append(front)
        if rest is None:
            return [polygon]
    return parts


def seen_from(tree, drawn):
    """The numbers of the leaves from inside which a part of a face is seen."""
    _, front, back = tree.nodes[drawn.node]
    found, waiting = [], [(back if drawn.is_behind else front, drawn.polygon)]
    while waiting:
        child, polygon = waiting.pop()
        if child < 0:
            found.append(tree.leaves[-1 - child].number)
            continue
        plane, front, back = tree.nodes[child]
        waiting += [(below_it, part) for below_it, part in zip((front, back), divided(polygon, tree.planes[plane])) if part]
    return found
