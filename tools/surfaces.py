"""What is seen of a tree: the surfaces of each leaf that is not solid, where what it holds ends.

A surface is seen from inside its leaf. It goes on as far as one face of the leaf and what lies beyond hold on: it is cut where
the contents beyond change, and not where one leaf beyond ends and another one of the same contents begins."""

from typing import NamedTuple, Optional

from below import SOLID, contents_below
from bodies import bodies
import corners
from treefile import CONTENTS

# what a leaf holds that is not solid
OPEN = frozenset(CONTENTS.values()) - SOLID


class Owner(NamedTuple):
    """A face of a brush, by their numbers; and, if the map is known, the name of its texture, and of each side of a surface, from a corner
    to the next one, whether the face ends there."""
    brush: int
    face: int
    texture: Optional[str]
    ends: list


class Surface(NamedTuple):
    """A polygon, which goes round against the clock as seen from its leaf; its plane, turned towards the leaf; the contents beyond; and
    the face of a brush to which it belongs, if that is known."""
    polygon: list
    plane: tuple
    beyond: str
    owner: Optional[Owner] = None

    def texture(self):
        """The name of its texture, or None."""
        return self.owner and self.owner.texture


class Seen(NamedTuple):
    """Of a leaf: its faces as a body, its surfaces, and the leaves that touch it and hold other contents, and are not solid."""
    faces: list
    surfaces: list
    touched: set


def seen(tree, planes=(), kinds=OPEN):
    """What is seen of each leaf that holds one of some kinds of contents and has points in front of some planes, by the number of the
    leaf: of what it has there."""
    below = contents_below(tree)
    return {leaf: seen_of(tree, below, leaf, faces) for leaf, faces in bodies(tree, below, kinds, planes)}


def seen_of(tree, below, leaf, faces):
    """What is seen of a leaf; `below` has at each child what leaves below it hold."""
    own, found = tree.leaves[leaf].contents, Seen(faces, [], set())
    for face in faces:
        if face.node is None:
            continue
        for beyond, polygon in pieces(tree, below, face, found.touched, own):
            if beyond != own:
                found.surfaces.append(Surface(polygon, face.plane, beyond))
    return found


def pieces(tree, below, face, touched, own):
    """The parts of a face, each with the contents beyond. A node beyond that parts no contents cuts nothing. Leaves beyond of
    other contents than one's own that are not solid are added to those that are touched."""
    own_alone, beyond = frozenset({own}), opposite(tree, face, face.node)
    found, waiting = [], [(beyond, face.polygon, None)]
    while waiting:
        child, polygon, first = waiting.pop()
        if first is not None:
            if all(contents == found[first][0] for contents, _ in found[first:]):
                found[first:] = [(found[first][0], polygon)]
            continue
        kinds = below[child]
        if kinds == own_alone:
            found.append((own, polygon))
        elif len(kinds) == 1 and kinds.isdisjoint(OPEN):
            found.append((*kinds, polygon))
        elif child < 0:
            found.append((tree.leaves[-1 - child].contents, polygon))
            touched.add(-1 - child)
        else:
            plane, front, back = tree.nodes[child]
            values = corners.values(polygon, tree.planes[plane])
            if min(values) < 0 < max(values):
                before, behind = corners.parted(polygon, values)
                waiting += [(None, polygon, len(found)), (back, behind, None), (front, before, None)]
            elif any(values):
                waiting.append((front if max(values) > 0 else back, polygon, None))
            else:
                waiting.append((opposite(tree, face, child), polygon, None))
    return found


def opposite(tree, face, node):
    """The child of a node on the face's plane that is not on the face's side of it."""
    plane, front, back = tree.nodes[node]
    return back if face.plane == tuple(tree.planes[plane]) else front


def row_of(tree, leaf):
    """The leaves that the row of a leaf holds."""
    numbered = [number for number, what in enumerate(tree.leaves) if what.number is not None]
    return {numbered[number] for number in tree.row(tree.leaves[leaf].number)}


def held(tree, seen, leaf):
    """The leaves that the row of a leaf holds, and those that touch them and hold other contents, since a row knows one contents."""
    found = row_of(tree, leaf)
    return found.union(other for other, what in seen.items() if not found.isdisjoint(what.touched))


def seen_beside(tree, leaf):
    """What is seen of the leaves that may touch some that the row of a leaf holds, and hold other contents."""
    kinds = {tree.leaves[other].contents for other in row_of(tree, leaf)}
    return seen(tree, kinds=OPEN - kinds if len(kinds) == 1 else OPEN)
