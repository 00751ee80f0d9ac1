"""What a plane at one height cuts out of a tree: a convex piece of each leaf that it meets, with exact corners.

A slice shows what is just above its height, since what lies on a plane goes to the plane's front. While pieces are cut their corners
are those of corners.py, so no fraction is made on the way."""

from fractions import Fraction

import corners
from polygons import square

# how many heights are tried where none is asked for
MOST_TRIED = 12
# how far above the floor the eyes of a player are, as in Quake
STANDING = 46


def pieces(tree, height):
    """Each leaf that the slice meets, with its piece, in the order of the leaves."""
    return [(leaf, [(Fraction(x, w), Fraction(y, w), height) for x, y, _, w in polygon])
            for leaf, polygon in whole_pieces(tree, height)]


def whole_pieces(tree, height):
    """The same with corners of four whole numbers."""
    waiting = [(tree.root(), [corners.corner((x, y, height)) for x, y in square(tree.bound)])]
    while waiting:
        child, polygon = waiting.pop()
        if child < 0:
            yield -1 - child, polygon
            continue
        plane, front, back = tree.nodes[child]
        before, behind = corners.split(polygon, tree.planes[plane])
        waiting += [(side, part) for side, part in ((back, behind), (front, before)) if part]


def heights(tree):
    """The heights of the horizontal planes of a tree's nodes, from the lowest on."""
    planes = (tree.planes[node.plane] for node in tree.nodes)
    return sorted({Fraction(plane.d, plane.nz) for plane in planes if plane.nx == plane.ny == 0})


def usual_height(tree):
    """Where there is much to see: of some heights the one with most open pieces and most walls, of which the fewer count, and of such
    ones that with most open pieces, and the lowest. Each stands above a horizontal plane of a node as high as eyes above a floor, or
    half way to the next plane where that is near. It is 0 where there are no two planes."""
    found = heights(tree)
    between = [min((low + high) / 2, low + STANDING) for low, high in zip(found, found[1:])] or [Fraction(0)]
    return max(between[::len(between) // MOST_TRIED + 1], key=lambda height: (*worth(tree, height), -height))


def worth(tree, height):
    """What there is to see at a height: of the pieces of a slice that reach no wall of the cube those that are open and those that are
    solid, and not filled, the fewer of both and those that are open."""
    inner = [tree.leaves[leaf] for leaf, polygon in whole_pieces(tree, height)
             if all(max(abs(x), abs(y)) < tree.bound * w for x, y, _, w in polygon)]
    opened = sum(leaf.number is not None for leaf in inner)
    return min(opened, sum(leaf.number is None and not leaf.filled for leaf in inner)), opened


def is_open_between(tree, first, second):
    """Whether each leaf that the straight way between two points goes through is not solid."""
    waiting = [(tree.root(), [corners.corner(first), corners.corner(second)])]
    while waiting:
        child, way = waiting.pop()
        if child < 0 and tree.leaves[-1 - child].number is None:
            return False
        if child >= 0:
            plane, front, back = tree.nodes[child]
            before, behind = corners.split(way, tree.planes[plane])
            waiting += [(side, part) for side, part in ((back, behind), (front, before)) if part]
    return True


def is_shown(tree, height, place):
    """Whether a place belongs to what a slice shows: nothing solid is straight between the two, nor where the slice is met."""
    met = (*place[:2], height)
    return tree.leaves[tree.leaf_at(met)].number is not None and is_open_between(tree, place, met)


def extent(tree, found):
    """The least and the greatest x and y of what is worth looking at: of the pieces that reach no wall of the cube and are
    not filled; where there are none, of the corners that lie on no wall; where there are none, of the whole cube."""
    shown = [polygon for leaf, polygon in found if not tree.leaves[leaf].filled and is_bounded(tree, polygon)]
    points = sum(shown, []) or [corner for _, polygon in found for corner in polygon if is_bounded(tree, [corner])]
    points = points or square(tree.bound)
    return [(min(numbers), max(numbers)) for numbers in list(zip(*points))[:2]]


def is_bounded(tree, polygon):
    """Whether a polygon reaches no wall across x and y."""
    return all(max(abs(x), abs(y)) < tree.bound for x, y, _ in polygon)
