"""Makes a clip hull from brushes: cells with sides along the axes, and in each the brushes that reach into it, one after another."""

from bisect import bisect_left, bisect_right
from typing import NamedTuple, Optional

from brushes import span
from clip import ANY, EMPTY, SOLID, moved, simple
from mapfaces import BLOCKING

# a cell is parted where its parts have together at most so many tenths of its planes, or it has more brushes than this
TENTHS, MANY = 13, 32


class Cell(NamedTuple):
    """A part of the cube with sides along the axes: its low and its high end; the brushes that reach into it, each with those of its
    planes that cross the cell, or None where all is solid; and the boxes of open leaves that reach into it, or None where nothing is
    filled."""
    low: tuple
    high: tuple
    near: Optional[list]
    boxes: Optional[list]

    def planes(self):
        """How many planes cross the cell."""
        return sum(len(planes) for _, planes in self.near or ())


def made(bodies, hull, bound, open_boxes):
    """The nodes of a hull of those brushes that are in the way. `open_boxes` are boxes around the open leaves, or None where nothing
    is to be filled."""
    brushes = [moved(body, hull, bound) for body in bodies if body.contents in BLOCKING]
    whole = Cell((-bound,) * 3, (bound,) * 3, [(brush, brush.planes) for brush in brushes], open_boxes)
    nodes, waiting = [[ANY, EMPTY, EMPTY]], [(whole, 0, (1, 2))]
    while waiting:
        cell, parent, sides = waiting.pop()
        axis, place, halves = parted(cell)
        for side in sides:
            nodes[parent][side] = len(nodes) if halves or cell.near else EMPTY if cell.near is not None else SOLID
        if halves:
            waiting += [(half, len(nodes), (side,)) for side, half in zip((1, 2), halves)]
            nodes.append([tuple(int(axis == other) for other in range(3)) + (place,), None, None])
        else:
            nodes += chain([planes for _, planes in cell.near or ()], len(nodes))
    return simple(nodes)


def parted(cell):
    """Along which axis a cell is parted, where, and both halves, the front first; or no halves."""
    axis, place = parting([brush for brush, _ in cell.near or ()], cell.low, cell.high)
    if axis is None:
        return None, None, []
    halves = [half(cell, axis, place, True), half(cell, axis, place, False)]
    is_worth = 10 * (1 + sum(part.planes() for part in halves)) <= TENTHS * cell.planes()
    return axis, place, halves if is_worth or len(cell.near) > MANY else []


def parting(brushes, low, high):
    """Along which axis and where a cell is best parted: so that both sides have few brushes. None twice where none is parted off."""
    best, found, count = 2 * len(brushes) ** 2, (None, None), len(brushes)
    for axis in range(3) if count > 1 else ():
        lows, highs = sorted([brush.low[axis] for brush in brushes]), sorted([brush.high[axis] for brush in brushes])
        for place in {number for number in lows + highs if low[axis] < number < high[axis]}:
            below, above = bisect_left(lows, place), count - bisect_right(highs, place)
            if below * below + above * above < best:
                best, found = below * below + above * above, (axis, place)
    return found


def half(cell, axis, place, is_above):
    """The part of a cell above or below a place along an axis."""
    end = (cell.low if is_above else cell.high)
    end = end[:axis] + (place,) + end[axis + 1:]
    low, high = (end, cell.high) if is_above else (cell.low, end)
    boxes = cell.boxes and [box for box in cell.boxes if (box.high[axis] > place if is_above else box.low[axis] < place)]
    near = [(brush, crossing(planes, low, high, axis)) for brush, planes in cell.near
            if (brush.high[axis] > place if is_above else brush.low[axis] < place)]
    near = [(brush, planes) for brush, planes in near if planes is not None]
    is_solid = boxes is not None and not boxes or not all(planes for _, planes in near)
    return Cell(low, high, None if is_solid else near, boxes)


def crossing(planes, low, high, axis):
    """Those planes of a brush that cross a part of a cell, of those that cross the cell, which is parted along an axis; or None where
    the part is in front of one."""
    found = []
    for plane in planes:
        if not plane[axis]:
            found.append(plane)
            continue
        least, most = span(plane, low, high)
        if least >= 0:
            return None
        if most > 0:
            found.append(plane)
    return found


def chain(brushes, first):
    """Nodes for brushes, each by its planes, one after another, numbered from `first` on: what is in front of a plane comes to the
    next brush."""
    nodes, number = [], first
    for at, planes in enumerate(brushes):
        end = number + len(planes)
        following = end if at + 1 < len(brushes) else EMPTY
        for plane in planes:
            number += 1
            nodes.append([plane, following, number if number < end else SOLID])
    return nodes
