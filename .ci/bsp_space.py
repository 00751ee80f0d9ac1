"""Holds the space of a level for engines to its tree file and its map: leaves, rows, boxes, hulls and brush models.

Places are tried by chance. Where a place is nearer to a plane than `MARGIN` it tells nothing, since the file rounds planes."""

from collections import Counter

from bsp_reader import Fault, SOLID
from map_reader import BOXES, Moved

MARGIN = 1 / 32
CODES = {"empty": -1, "solid": -2, "water": -3, "slime": -4, "lava": -5, "sky": -6}
# from the strongest contents on
STRENGTH = ["solid", "sky", "lava", "slime", "water"]
# how far a box may be larger than what it holds, and how far a number of 16 bits goes
LOOSE, FARTHEST = 2.5, 32767
# how far the distance of a plane may be off
CLOSE = 1 / 64
# places by chance: anywhere, near each corner of some leaves, inside each leaf, and around each brush model
ANYWHERE, NEAR, WITHIN, AROUND = 2000, 4000, 2, 1500


def inside(corners, rng):
    """A place inside what has some corners."""
    weights = [rng.random() + 0.01 for _ in corners]
    return tuple(sum(weight * number for weight, number in zip(weights, numbers)) / sum(weights) for numbers in zip(*corners))


def near(corners, reach, rng):
    """A place not far from one of some corners."""
    return tuple(number + rng.uniform(-reach, reach) for number in rng.choice(corners))


def places(bodies, rng):
    """Places in and around a level whose leaves have these corners."""
    everywhere = [corner for corners in bodies.values() for corner in corners if max(map(abs, corner)) < FARTHEST]
    if everywhere:
        low, high = ([least(numbers) for numbers in zip(*everywhere)] for least in (min, max))
        for _ in range(ANYWHERE):
            yield tuple(rng.uniform(a - 64, b + 64) for a, b in zip(low, high))
        for _ in range(NEAR):
            yield near(everywhere, 70, rng)
    for corners in bodies.values():
        for _ in range(WITHIN):
            yield inside(corners, rng)


def faults_of_leaves(level, tree, bodies, rng):
    """Where a place is in another leaf than by the tree, or a leaf holds something else."""
    numbered = [leaf for leaf in tree.leaves if leaf.number is not None]
    if level.leaves[0].contents != SOLID or level.leaves[0].marks:
        yield "leaf 0 is not the one solid leaf without marks"
    if level.models[0].numbered != len(numbered) or len(level.leaves) <= len(numbered):
        yield f"there are {level.models[0].numbered} leaves in which rows are held, and not {len(numbered)}"
        return
    for leaf in numbered:
        if level.leaves[leaf.number + 1].contents != CODES[leaf.contents]:
            yield f"leaf {leaf.number + 1} holds {level.leaves[leaf.number + 1].contents}, and not {leaf.contents}"
    sure, tried, met = 0, 0, set()
    for place in places(bodies, rng):
        found = level.leaf_at(place, level.models[0].heads[0], MARGIN)
        number = tree.leaves[tree.leaf_at(place)].number
        wanted = 0 if number is None else number + 1
        sure, tried = sure + (found is not None), tried + 1
        met.add(found)
        if found not in (None, wanted):
            yield f"{place} is in leaf {found}, and not in leaf {wanted}"
    if sure < tried * 8 // 10 or len(met) < len(numbered) * 8 // 10:
        yield f"only {sure} places of {tried} tell something, in {len(met)} leaves of {len(numbered)}"


def is_among(plane, planes):
    """Whether a plane is one of some, given by normals of length 1 and distances, or one of them turned."""
    (a, b, c), distance, _ = plane
    return any(abs(a * x + b * y + c * z) > 1 - 1e-6 and abs(distance - (d if a * x + b * y + c * z > 0 else -d)) < CLOSE
               for (x, y, z), d in planes)


def faults_of_node_planes(level, tree):
    """Where a node of the world has a plane that is no node's of the tree."""
    planes = [((a / size, b / size, c / size), d / size) for a, b, c, d in (tree.planes[node.plane] for node in tree.nodes)
              for size in [(a * a + b * b + c * c) ** 0.5]]
    for node in below(level.nodes, level.models[0].heads[0]):
        if set(planes) and not is_among(level.planes[node.plane], set(planes)):
            yield f"a node is on the plane {level.planes[node.plane]}, which is no node's of the tree"


def below(nodes, head):
    """The nodes of a tree."""
    waiting, met = [head], set()
    while waiting:
        child = waiting.pop()
        if child >= 0 and child not in met:
            met.add(child)
            waiting += nodes[child].children
    return [nodes[number] for number in met]


def faults_of_rows(level, tree):
    """Where a row is not that of the tree."""
    count = level.models[0].numbered
    begins = [leaf.row for leaf in level.leaves]
    if begins[0] != -1 or any(row != -1 for row in begins[count + 1:]):
        yield "a leaf has a row that is none of the tree's numbered leaves"
    if tree.rows is None:
        if level.visibility or any(row != -1 for row in begins):
            yield "there are rows, and the tree has none"
        return
    used = {}
    for number in range(count):
        begin = begins[number + 1]
        if not 0 <= begin < len(level.visibility):
            yield f"leaf {number + 1} has no row"
            continue
        try:
            row, used[begin] = level.row_at(begin, (count + 7) // 8)
        except Fault as fault:
            yield str(fault)
            continue
        if row != tree.rows[number]:
            yield f"the row of leaf {number + 1} is not that of the tree"
    ends = [0, *(used[begin] for begin in sorted(used))]
    if sorted(used) + [len(level.visibility)] != ends:
        yield "the visibility has bytes that are no row's, or of two rows"
    if len(used) != len(set(tree.rows)):
        yield f"there are {len(used)} rows, and {len(set(tree.rows))} different ones"


def faults_of_boxes(level, bodies, tree):
    """Where a box does not hold its leaf, or is much larger, or that of a node does not hold those below it."""
    for leaf, corners in bodies.items():
        own = level.leaves[tree.leaves[leaf].number + 1]
        for axis, numbers in enumerate(zip(*corners)):
            low, high = max(min(numbers), -FARTHEST), min(max(numbers), FARTHEST)
            if not low - LOOSE <= own.low[axis] <= low + 0.01 or not high - 0.01 <= own.high[axis] <= high + LOOSE:
                yield f"the box of leaf {tree.leaves[leaf].number + 1} is {own.low} to {own.high}: along {'xyz'[axis]} {low} to {high}"
    for number, node in enumerate(level.nodes):
        for child in node.children:
            below = level.nodes[child] if child >= 0 else level.leaves[-1 - child]
            if child == -1 or below is level.leaves[0]:
                continue
            if any(a > b for a, b in zip(node.low, below.low)) or any(a < b for a, b in zip(node.high, below.high)):
                yield f"the box of node {number} does not hold that of its child {child}"


def faults_of_order(level):
    """Where nodes or clip nodes are not trees, one for each hull."""
    met = Counter()
    for number, model in enumerate(level.models):
        waiting = [model.heads[0]]
        while waiting:
            child = waiting.pop()
            met[child] += child != -1
            if child >= len(level.nodes) or -1 - child >= len(level.leaves):
                yield f"model {number} has a child {child}, which is not there"
                return
            if met[child] > 1:
                yield f"{child} is a child twice"
                return
            waiting += level.nodes[child].children if child >= 0 else ()
    if len(met) - (-1 in met) != len(level.nodes) + len(level.leaves) - 1:
        yield "some node or leaf is below no model"
    yield from faults_of_clip_order(level)


def faults_of_clip_order(level):
    """Where clip nodes are no trees: engines refuse children that have a number below that of the hull's head."""
    used = set()
    for number, model in enumerate(level.models):
        for head in (model.heads[hull] for hull in BOXES):
            waiting, met = [head], set()
            while waiting:
                child = waiting.pop()
                if child < 0 and child not in (-1, -2) or child >= len(level.clip_nodes) or 0 <= child < head:
                    yield f"a hull of model {number} has the child {child}"
                    return
                if child >= 0 and child not in met:
                    met.add(child)
                    waiting += level.clip_nodes[child].children
            if head < 0:
                yield f"a hull of model {number} begins at {head}, which is no clip node"
            used |= met
    if len(used) != len(level.clip_nodes):
        yield f"{len(level.clip_nodes) - len(used)} clip nodes are in no hull"


def beside(tried, moved, rng):
    """Places close to a moved plane by chance, each not far from one of some places."""
    planes = [plane for brush in moved.brushes for plane in brush]
    for _ in range(NEAR if planes else 0):
        place, (normal, distance) = rng.choice(tried), rng.choice(planes)
        away = distance - sum(a * b for a, b in zip(normal, place)) + rng.choice((-1, 1)) * 4 * MARGIN
        if abs(away) < 100:
            yield tuple(number + away * part for number, part in zip(place, normal))


def faults_of_hulls(level, tree, bodies, world, rng):
    """Where a hull of the world is not as its moved brushes say. What lies outside a sealed level may be filled."""
    anywhere = list(places(bodies, rng))
    for hull in BOXES:
        moved, counts = Moved(world.brushes, hull), Counter()
        tried = anywhere + list(beside(anywhere, moved, rng))
        for place in tried:
            found, wanted = level.clip_at(place, level.models[0].heads[hull], MARGIN), moved.is_met(place, MARGIN)
            if None in (found, wanted):
                continue
            is_open = tree.leaves[tree.leaf_at(place)].number is not None
            counts[is_open, wanted] += 1
            if (found == SOLID) != wanted and (wanted or is_open):
                yield f"hull {hull} has {found} at {place}, where a box {'meets a brush' if wanted else 'meets no brush'}"
        if sum(counts.values()) < len(tried) // 2:
            yield f"hull {hull}: only {sum(counts.values())} places of {len(tried)} tell something"


def contents_at(brushes, place):
    """The strongest contents of the brushes that hold a place; None where that is not sure."""
    found = "empty"
    for brush in brushes:
        deepest = max(sum(a * b for a, b in zip(face.normal, place)) - face.distance for face in brush.faces)
        if abs(deepest) < MARGIN:
            return None
        if deepest < 0 and brush.contents in STRENGTH:
            found = min(found, brush.contents, key=lambda what: (STRENGTH + ["empty"]).index(what))
    return found


def faults_of_model(level, number, brushes, rng):
    """Where a brush model holds something else than its brushes, or its hulls are not as its moved brushes say."""
    model = level.models[number]
    moved = {hull: Moved(brushes, hull) for hull in BOXES}
    for _ in range(AROUND):
        place = tuple(rng.uniform(a - 80, b + 80) for a, b in zip(model.low, model.high))
        leaf, wanted = level.leaf_at(place, model.heads[0], MARGIN), contents_at(brushes, place)
        if None not in (leaf, wanted) and level.leaves[leaf].contents != CODES[wanted]:
            yield f"model {number} holds {level.leaves[leaf].contents} at {place}, and not {wanted}"
        for hull in BOXES:
            found, wanted = level.clip_at(place, model.heads[hull], MARGIN), moved[hull].is_met(place, MARGIN)
            if None not in (found, wanted) and (found == SOLID) != wanted:
                yield f"hull {hull} of model {number} has {found} at {place}, where a box {'meets' if wanted else 'meets no'} brush"
