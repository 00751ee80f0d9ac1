#!/usr/bin/env python3
"""Compares what `PROGRAM inspect` answers with what the slow reader tools/treefile.py finds in the same tree files.

    .ci/compare_answers.py PROGRAM TREE..

Of each tree, and of some that are made here, 1,000 queries are asked in one call: places of whole numbers and of decimals, many
of them on planes of nodes, in the tree, in its clip hulls and in its brush models, segments through these, rows, whether one leaf
sees another, models, and faces. Then short lists of queries, of which some are refused.
"""

from fractions import Fraction
from itertools import islice
from pathlib import Path
import random
import subprocess
import sys
import tempfile

sys.path.insert(0, str(Path(__file__).resolve().parent.parent / "tools"))

import made_sections
import made_trees
import treefile


# how far from 0 the distance of a plane may be whose tree is asked for segments
MOST_DISTANCE = 3 << 41


class Refused(Exception):
    """Why a query is refused."""


def numbered(tree):
    """How many leaves are numbered."""
    return sum(leaf.number is not None for leaf in tree.leaves)


def number(draw, near, bound):
    """A number in some spelling: a whole one up to a bound, a decimal, or one at or next to another."""
    kind = draw.randrange(4)
    if kind == 0:
        return str(draw.randint(-bound, bound))
    if kind == 1:
        decimals = "".join(draw.choices("0123456789", k=draw.randint(0, 6)))
        return draw.choice(["", "+", "-"]) + f"{draw.randint(0, bound)}.{decimals}"
    value = near + draw.choice([0, 0, 0, 1, -1])
    return f"{value}.{draw.choice(['', '0', '5', '000001'])}" if kind == 2 else str(value)


def place(draw, planes, bound):
    """A place, often on a plane across an axis, or next to it."""
    words = [number(draw, draw.randint(-300, 300), bound) for _ in range(3)]
    for plane in draw.choices(planes, k=3) if planes else []:
        if sorted(plane[:3]) == [0, 0, 1] and abs(plane[3]) < 2 * bound:
            words[plane[:3].index(1)] = number(draw, plane[3], bound)
    return ",".join(words)


def part(tree, kind):
    """The tree of a clip hull, or why it cannot be asked."""
    try:
        return tree.hull(kind)
    except treefile.NoPart:
        return "no part"
    except treefile.BadPart:
        return "bad part"


def brush_models(tree):
    """The brush models by their entities, or why they cannot be asked."""
    try:
        return {model.entity: model for model in tree.models()}
    except treefile.NoPart:
        return "no part"
    except treefile.BadPart:
        return "bad part"


def faces(tree):
    """The faces, or why they cannot be asked."""
    try:
        return tree.faces()
    except treefile.NoPart:
        return "no part"
    except treefile.BadPart:
        return "bad part"


def parts(tree):
    """What the sections of a tree have, by their kinds: clip hulls, brush models and faces, or why these cannot be asked."""
    return {**{kind: part(tree, kind) for kind in treefile.HULLS}, treefile.MODELS: brush_models(tree), treefile.FACES: faces(tree)}


def hull_query(draw, tree, hulls):
    """A query for a place in a clip hull, often one that is there."""
    kind = draw.choice([kind for kind in treefile.HULLS if isinstance(hulls[kind], treefile.Tree)] + list(treefile.HULLS))
    hull = hulls[kind] if isinstance(hulls[kind], treefile.Tree) else tree
    return f"hull={kind}," + place(draw, hull.planes, tree.bound)


def trace_query(draw, tree, hulls):
    """A query for a segment through the tree or a clip hull: often along an axis or a plane, and at times one point."""
    kind = draw.choice([None, None, *treefile.HULLS])
    walked = hulls[kind] if isinstance(hulls.get(kind), treefile.Tree) else tree
    first, second = (place(draw, walked.planes, tree.bound).split(",") for _ in range(2))
    same = draw.choice([(), (), (2,), (0, 1), (1, 2), (0, 1, 2)])
    second = [first[axis] if axis in same else second[axis] for axis in range(3)]
    if draw.randrange(8) == 0:
        # between the farthest corners
        first, second = ([draw.choice(("-", "")) + f"{tree.bound - 1}.999999" for _ in range(3)] for _ in range(2))
    return ("trace=" if kind is None else f"hulltrace={kind},") + ",".join(first + second)


def model_query(draw, tree, models):
    """A query for a brush model, often one that is there, or for a place in it."""
    # no word has more than 18 digits
    near = [entity for entity in models if entity < 10 ** 18] if isinstance(models, dict) else []
    entity = draw.choice([*near, *near, *near, 0, 1, 2, 10 ** 18 - 1])
    planes = models[entity].tree.planes if isinstance(models, dict) and entity in models else tree.planes
    return f"model={entity}" + ("," + place(draw, planes, tree.bound) if draw.random() < 0.7 else "")


def face_query(draw, found):
    """A query for a face, often one that is there, or for how many there are."""
    count = len(found) if isinstance(found, list) else 0
    return draw.choice(["faces", *[f"face={number}" for number in (*draw.choices(range(count or 1), k=6), count, 10 ** 18 - 1)]])


def query(draw, tree, hulls, below):
    """A query of some sort, with numbers of leaves below another."""
    kind = draw.randrange(27)
    if kind >= 24:
        return face_query(draw, hulls[treefile.FACES])
    if kind >= 20:
        return model_query(draw, tree, hulls[treefile.MODELS])
    if kind == 0:
        return draw.choice(["count", "parts"])
    if kind < 4:
        return hull_query(draw, tree, hulls)
    if kind < 8:
        return trace_query(draw, tree, hulls)
    if kind < 12 or not below:
        return "at=" + place(draw, tree.planes, tree.bound)
    return f"row={draw.randrange(below)}" if kind == 12 else f"sees={draw.randrange(below)},{draw.randrange(below)}"


def answer(tree, hulls, word):
    """The line that answers a query."""
    verb, _, rest = word.partition("=")
    values = rest.split(",")
    if verb == "count":
        rows = "no" if tree.rows is None else "yes"
        return (f"planes {len(tree.planes)} nodes {len(tree.nodes)} leaves {len(tree.leaves)} numbered {numbered(tree)}"
                f" rows {rows}")
    if verb == "parts":
        return " ".join([f"version {tree.version} bound {tree.bound} parts", *(str(section.kind) for section in tree.sections)])
    if verb == "at":
        return answer_at(tree, point(tree, values))
    if verb == "hull":
        return answer_hull(hulls[int(values[0])], point(tree, values[1:]))
    if verb == "model":
        return answer_model(tree, hulls[treefile.MODELS], values)
    if verb in ("face", "faces"):
        return answer_faces(tree, hulls[treefile.FACES], rest)
    if verb == "trace":
        return answer_trace(tree, *ends(tree, values))
    if verb == "hulltrace":
        return answer_trace(hulls[int(values[0])], *ends(tree, values[1:]))
    numbers = list(map(int, values))
    if max(numbers) >= numbered(tree):
        raise Refused("no such leaf")
    if tree.rows is None:
        raise Refused("no rows")
    row = tree.row(numbers[0])
    if verb == "row":
        return " ".join([f"row {numbers[0]}:", *map(str, row)])
    return "yes" if numbers[1] in row else "no"


def point(tree, values):
    """The point of three numbers."""
    found = tuple(Fraction(value.rstrip(".")) for value in values)
    if max(map(abs, found)) >= tree.bound:
        raise Refused("outside the cube")
    return found


def answer_hull(hull, place):
    """The line of a point in a clip hull."""
    if not isinstance(hull, treefile.Tree):
        raise Refused(hull)
    return "hull solid" if hull.is_solid_at(place) else "hull empty"


def answer_model(tree, models, values):
    """The line of a brush model, or of a point in it."""
    entity, place = int(values[0]), point(tree, values[1:]) if values[1:] else None
    if not isinstance(models, dict):
        raise Refused(models)
    if entity not in models:
        raise Refused("no such model")
    model = models[entity]
    if place:
        return f"model {entity} {model.tree.leaves[model.tree.leaf_at(place)].contents}"
    return " ".join(map(str, ["model", entity, "box", *model.low, *model.high, "leaves", *model.leaves]))


def answer_faces(tree, found, number):
    """The line of a face, or of how many there are where no number is given."""
    if not isinstance(found, list):
        raise Refused(found)
    if not number:
        return f"faces {len(found)}"
    if int(number) >= len(found):
        raise Refused("no such face")
    piece = found[int(number)]
    corners = "".join(f" ({''.join(f'{coordinate(part)} ' for part in tree.corner(corner))})" for corner in piece.corners)
    return f"face {number} leaf {piece.leaf} brush {piece.brush} face {piece.face}{corners}"


def coordinate(number):
    """A coordinate as a listing of portals spells it: six decimals, to the nearest and a half away from 0, unless it is whole."""
    if number.denominator == 1:
        return str(number)
    millionths = (2 * 1000000 * abs(number.numerator) // number.denominator + 1) // 2
    return f"{'-' if number < 0 and millionths else ''}{millionths // 1000000}.{millionths % 1000000:06}"


def ends(tree, values):
    """Both ends of a segment."""
    return point(tree, values[:3]), point(tree, values[3:])


def answer_trace(walked, first, second):
    """The lines of a segment through a tree or a clip hull."""
    if not isinstance(walked, treefile.Tree):
        raise Refused(walked)
    if any(abs(walked.planes[node.plane].d) > MOST_DISTANCE for node in walked.nodes):
        raise Refused("plane too wide")
    lines = []
    for leaf, to in walked.spans(first, second):
        contents, filled, _ = walked.leaves[leaf]
        lines.append(f"leaf {leaf} {contents}{' filled' if filled else ''} to {to.numerator}/{to.denominator}")
    return "\n".join(lines)


def answer_at(tree, place):
    """The line of the leaf at a point."""
    leaf = tree.leaf_at(place)
    contents, filled, own = tree.leaves[leaf]
    return f"leaf {leaf} {contents}" + ("" if own is None else f" number {own}") + (" filled" if filled else "")


def due(tree, hulls, words):
    """The status to end with, and what has to be printed of queries."""
    lines = []
    for word in words:
        try:
            lines.append(answer(tree, hulls, word) + "\n")
        except Refused as refused:
            return 9, f"query {len(lines) + 1} refused: {refused}\n"
    return 0, "".join(lines)


def lists(tree, hulls, count):
    """The lists of queries to ask: one of ten times so many, and so many short ones; and some of their own."""
    draw = random.Random(1)
    below = 0 if tree.rows is None else numbered(tree)
    many = (query(draw, tree, hulls, below) for _ in range(20 * count))
    yield [word for word in many if due(tree, hulls, [word])[0] == 0][:10 * count]
    for _ in range(count):
        yield [query(draw, tree, hulls, numbered(tree) + 1) for _ in range(draw.randint(1, 6))]
    # that a place is outside goes before that there is no part, or a bad one, and that before that there is no such model
    for entity in 1, 2, 77:
        yield [f"model={entity},0,0,-{tree.bound}"]
        yield ["count", f"model={entity},{tree.bound},0,0"]
        yield [f"model={entity},0,0,0", f"model={entity}"]
        yield [f"model={entity}", "model=0"]
    yield ["faces", "face=0", "face=1"]
    yield ["face=77777777777", "faces"]
    yield ["face=0", f"at={tree.bound},0,0"]
    for kind in treefile.HULLS:
        yield [f"hull={kind},{tree.bound},0,0"]
        yield [f"hull={kind},0,0,0", f"hull={kind},0,-{tree.bound},0"]
        yield [f"hulltrace={kind},0,0,0,0,{tree.bound},0"]
    yield [f"trace={tree.bound},0,0,0,0,0"]
    yield [f"row={numbered(tree)}", f"at={tree.bound},0,0"]
    yield [f"at=0,0,{-tree.bound}", f"row={numbered(tree)}"]
    yield ["parts", f"at=0,{tree.bound - 1}.999999,0", "at=4096,0,0", "at=0,-32768,0"]


def near_tree(draw, count):
    """A tree of slanted planes that all meet the cube."""
    while True:
        tree = treefile.decode(made_trees.random_tree(draw, count, False, 2, treefile.BOUNDS[-1]))
        tree = tree._replace(planes=[plane._replace(d=plane.d >> 4) for plane in tree.planes])
        try:
            return treefile.decode(made_trees.written(tree))
        except treefile.Fault:
            pass


def made(folder):
    """The names of trees that are made in a folder: of slanted planes, with rows of which one can lack a leaf whose row has its
    own, without rows, and with long rows; of both versions, in a large world, and with sections, of which some are clip hulls, brush
    models or faces, and others have what these have not: rows, sections, another version or bound, or something behind."""
    draw = random.Random(2)
    trees = {"slanted": made_trees.random_tree(draw, 90, True), "without": made_trees.random_tree(draw, 90, False),
             "long": made_trees.long_tree(700), "first": made_trees.random_tree(draw, 40, True, 1),
             "large": made_trees.random_tree(draw, 40, True, 2, treefile.BOUNDS[-1]),
             "parts": made_trees.random_tree(draw, 40, True, 2, treefile.BOUNDS[0], [(1, b"a"), (9, b""), (2 ** 32 - 1, bytes(300))])}
    # slanted planes that all meet the cube, in the tree and in its hulls
    near = [near_tree(draw, count) for count in (90, 60, 30)]
    trees["near"] = made_trees.written(near[0]._replace(sections=[
        treefile.Section(kind, made_trees.written(hull)) for kind, hull in enumerate(near[1:], 1)]))
    for number, hulls in enumerate(made_sections.hulls(draw)):
        trees[f"hulls{number}"] = made_trees.random_tree(draw, 40, True, 2, treefile.BOUNDS[-1], hulls)
    base = treefile.decode(made_trees.random_tree(draw, 40, True, 2, treefile.BOUNDS[-1]))
    for number, data in enumerate(made_sections.model_sections(draw, base.numbered())):
        trees[f"models{number}"] = made_trees.written(base._replace(sections=[treefile.Section(treefile.MODELS, data)]))
    for planes in base.planes, made_sections.slanted_planes(draw):
        tree = base._replace(planes=planes, nodes=[node._replace(plane=0) for node in base.nodes])
        # what is odd is told alike of all planes
        for data in islice(made_sections.face_sections(draw, tree), None if planes is base.planes else 3):
            trees[f"faces{len(trees)}"] = made_trees.written(tree._replace(sections=[treefile.Section(treefile.FACES, data)]))
    for name, data in trees.items():
        Path(folder, f"{name}.tree").write_bytes(data)
        yield f"{folder}/{name}.tree"


def faults(program, name):
    """For each list of queries to a tree what is wrong with its answers, or None."""
    tree = treefile.load(name)
    hulls = parts(tree)
    # there are many that differ in their models or faces alone
    for words in lists(tree, hulls, 10 if Path(name).name.startswith(("models", "faces")) else 100):
        ran = subprocess.run([program, "inspect", name, *words], capture_output=True, text=True, check=False)
        found, wanted = (ran.returncode, ran.stdout + ran.stderr), due(tree, hulls, words)
        yield None if found == wanted else f"{name}, asked {words[:6]}: {str(found)[:300]}, and due are {str(wanted)[:300]}"


def main():
    with tempfile.TemporaryDirectory() as folder:
        found = [fault for name in [*sys.argv[2:], *made(folder)] for fault in faults(sys.argv[1], name)]
    wrong = list(filter(None, found))
    print(*wrong[:20], f"{len(found)} lists of queries, {len(wrong)} wrong", sep="\n")
    sys.exit(1 if wrong else 0)


if __name__ == "__main__":
    main()
