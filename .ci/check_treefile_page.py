#!/usr/bin/env python3
"""Compiles docs/look.c, and compares what it prints with what `tools/treefile.py` reads: the leaves of points, rows, clip hulls, what
is met on segments, which models are drawn, and faces. The piece of C of docs/TREEFILE.md stands in that program. And the bytes that
the page shows are those of samples/cube.map, and those with which the models of samples/room.map and the faces of samples/cube.map
begin.

    .ci/check_treefile_page.py FOLDER TREE..

The trees are files of FOLDER, as the compiler wrote them; the faces of cube.map are in the first one, and the models of room.map in
the last one. They get rows by chance and
are written in version 1 too, and so are trees that are made here."""

from pathlib import Path
from fractions import Fraction
import random
import re
import subprocess
import sys

sys.path.insert(0, str(Path(__file__).resolve().parent.parent / "tools"))

from check_qmtree import STRICT, struck
import made_sections
from made_trees import CODES, cube, long_tree, random_tree, written
import treefile

PAGE, SOURCE = Path("docs/TREEFILE.md"), Path("docs/look.c")
POINTS = 6
# sections behind those of clip hulls
SECTIONS = [(7, b""), (2 ** 32 - 1, bytes(300))]


def compiled(folder):
    """The program of which the page shows a piece."""
    pieces = re.findall(r"^```c\n(.*?)^```$", PAGE.read_text(), re.M | re.S)
    if not pieces or not all(piece in SOURCE.read_text() for piece in pieces):
        sys.exit(f"{PAGE} shows no C, or C that is not in {SOURCE}")
    program = folder / "look"
    subprocess.run(["cc", "-std=c99", "-O1", *STRICT, "-o", program, SOURCE], check=True)
    return program


def shown():
    """The bytes that the page shows, block by block."""
    blocks = re.findall(r"(?:^    (?:[0-9A-F]{2}(?: |$))+.*\n)+", PAGE.read_text(), re.M)
    return [bytes.fromhex(" ".join(re.findall(r"^    ((?:[0-9A-F]{2}(?: |$))+)", block, re.M))) for block in blocks]


def with_rows(tree, rng):
    """The tree with rows by chance, of long and short runs of zeros."""
    count = sum(leaf.number is not None for leaf in tree.leaves)
    rows = [{own} | {other for other in range(count) if rng.random() < rng.choice((0.02, 0.5))} for own in range(count)]
    spelled = [sum(1 << other for other in row).to_bytes((count + 7) // 8, "little") for row in rows]
    return tree._replace(rows=spelled)


def with_sections(tree, hulls, rng):
    """The tree with sections: clip hulls, by their kinds, models where there is a hull, and others."""
    stored = [(kind, written(hull._replace(version=2, bound=tree.bound, rows=None, sections=[]))) for kind, hull in hulls]
    if hulls and tree.numbered() > 2:
        models = next(made_sections.model_sections(rng, tree.numbered(), tree.bound))
        stored.append((treefile.MODELS, models))
    if hulls:
        stored.append((treefile.FACES, next(made_sections.face_sections(rng, tree))))
    return tree._replace(sections=[treefile.Section(*section) for section in (*stored, *SECTIONS)])


def wanted(tree, models, hulls, point, end):
    """What the program should print of a point and another one: texts, and texts with the number behind them."""
    leaf = tree.leaf_at(point)
    what = tree.leaves[leaf]
    yield f"leaf {leaf} contents {CODES[what.contents]}"
    if models is None:
        yield "models: no part"
    own = None if tree.rows is None else what.number
    held = list(range(tree.numbered())) if own is None else tree.row(own)
    touching, through = beyond(tree, held)
    yield f"number {-1 if what.number is None else what.number}"
    yield " ".join(["row:", *map(str, held)])
    yield touching and " ".join(["touching:", *map(str, sorted(touching - set(held)))])
    yield touching and " ".join(["through:", *map(str, sorted(through - set(held)))])
    held = touching or held
    for model in models or ():
        is_drawn = any(leaf in held for leaf in model.leaves)
        yield (f"model {model.entity}: {'drawn' if is_drawn else 'not drawn'}, "
               f"{CODES[model.tree.leaves[model.tree.leaf_at(point)].contents]} there")
    yield from faces(tree, held)
    for kind in treefile.HULLS:
        if kind in hulls:
            yield f"hull {kind}: {'solid' if hulls[kind].is_solid_at(point) else 'empty'}, solid at", struck(hulls[kind], point, end)
        else:
            yield f"hull {kind}: no part"


CONTACTS = {}
# in a deeper tree exact fractions take too long: there what is beside a leaf is not looked at
MOST_NODES = 1000


def beyond(tree, held):
    """What a row holds with the leaves of other contents that touch these, and with all that their rows hold; or twice None."""
    if len(tree.nodes) > MOST_NODES:
        return None, None
    key = id(tree.nodes), tree.bound
    if key not in CONTACTS:
        CONTACTS[key] = tree.nodes, tree.contacts()
    contacts = CONTACTS[key][1]
    touching = {other for one in held for other in contacts[one]}
    seen = {leaf for other in touching for leaf in tree.row(other)} if tree.rows is not None else set()
    return set(held) | touching, set(held) | touching | seen


def missed(tree, rng):
    """Two leaves of different contents between which a segment goes, and of which the contacts do not have each other, or None."""
    contacts = tree.contacts()
    for _ in range(300):
        ends = [tuple(Fraction(rng.randrange(-600 * 997, 600 * 997), 997) for _ in range(3)) for _ in range(2)]
        leaves = [tree.leaves[span.leaf] for span in tree.spans(*ends)]
        for one, other in zip(leaves, leaves[1:]):
            if None not in (one.number, other.number) and one.contents != other.contents and other.number not in contacts[one.number]:
                return one, other
    return None


def models_of(tree):
    """The models, or None where the tree has none."""
    try:
        return tree.models()
    except treefile.NoPart:
        return None


def faces(tree, held):
    """What the program should print of the faces of leaves that a row holds: texts, each with the coordinates of all corners behind it."""
    try:
        found = tree.faces()
    except treefile.NoPart:
        yield "faces: no part"
        return
    for at, piece in enumerate(found):
        if tree.leaves[piece.leaf].number in held:
            yield f"face {at} of brush {piece.brush}, face {piece.face}:", [part for corner in piece.corners for part in tree.corner(corner)]


def along(tree, point, end):
    """What the program should print of a segment."""
    for leaf, to in tree.spans(point, end):
        yield f"leaf {leaf} contents {CODES[tree.leaves[leaf].contents]} to", to


def moved(tree, models, point, way):
    """The entities of models of which something is seen when they have moved some way, as far as some places in their boxes tell."""
    own = tree.leaves[tree.leaf_at(point)].number
    held = None if own is None or tree.rows is None else set(tree.row(own))
    return {model.entity for model in models or () if any(is_seen(tree, held, place) for place in places_of(model, way))}


def is_seen(tree, held, place):
    """Whether a row that holds these, or None for all, holds the leaf of a place."""
    number = tree.leaves[tree.leaf_at(place)].number
    return number is not None and (held is None or number in held)


def places_of(model, way):
    """The corners of a model's box and some places in it, after it has moved."""
    low, high = ([a + b for a, b in zip(end, way)] for end in (model.low, model.high))
    parts = (0, Fraction(1, 3), 1)
    for x in parts:
        for y in parts:
            for z in parts:
                yield tuple(a + part * (b - a) for a, b, part in zip(low, high, (x, y, z)))


def place(rng, reach):
    """A point whose coordinates are quarters or sixteenths, or whole, so far from 0."""
    parts = [rng.choice((1, 4, 16)) for _ in range(3)]
    return tuple(Fraction(rng.randrange(1 - reach * part, reach * part), part) for part in parts)


def fits(lines, due):
    """Whether lines are texts that are due, or such before a number, or before numbers in brackets, that are nearly those that are due."""
    return len(lines) == len(due) and all(
        text is None or line == text if text is None or isinstance(text, str) else line.startswith(text[0] + " ") and are_near(line.removeprefix(text[0]), text[1])
        for line, text in zip(lines, due))


def are_near(spelled, numbers):
    """Whether a text has just these numbers, nearly."""
    found, numbers = list(map(float, spelled.replace("(", " ").replace(")", " ").split())), numbers if isinstance(numbers, list) else [numbers]
    return len(found) == len(numbers) and all(abs(one - other) <= max(1e-8, 1e-8 * abs(other)) for one, other in zip(found, numbers))


def fault(program, folder, tree, points):
    """The first point of which the program says something else, or None."""
    (folder / "look.tree").write_bytes(written(tree))
    models, hulls = models_of(tree), {section.kind: tree.hull(section.kind) for section in tree.sections if section.kind in treefile.HULLS}
    for point, end, way in zip(points, points[1:] + points[:1], points[2:] + points[:2]):
        words = [str(float(number)) for number in (*point, *end, *way)]
        alone, both, more = (subprocess.run([program, "look.tree", *words[:many]], cwd=folder, capture_output=True, text=True,
                                            check=True).stdout.splitlines() for many in (3, 6, 9))
        due = list(wanted(tree, models, hulls, point, point))
        if not fits(alone, due):
            return f"for {words[:3]} it prints {alone!r}, and should print {due!r}"
        due = [*wanted(tree, models, hulls, point, end), *along(tree, point, end)]
        if not fits(both, due):
            return f"for {words[:6]} it prints {both!r}, and should print {due!r}"
        told = {int(line.removeprefix("drawn if moved: ")) for line in more[len(both):]}
        seen = moved(tree, models, point, way)
        if more[:len(both)] != both or not seen <= told:
            return f"for {words} it prints {more!r}, and {seen} are drawn if they have moved"
    return None


def main():
    folder, rng = Path(sys.argv[1]).resolve(), random.Random(7)
    whole_cube, models, faces_of_cube = shown()
    if whole_cube != cube():
        sys.exit(f"{PAGE}: the bytes are not those of samples/cube.map")
    program = compiled(folder)
    read = [treefile.load(folder / name) for name in sys.argv[2:]]
    room = read[-1].part(treefile.MODELS)
    if room[:len(models)] != models or len(room) != len(models) + 324:
        sys.exit(f"{PAGE}: the bytes are not those of the models of samples/room.map")
    cube_section = read[0].part(treefile.FACES)
    if cube_section[:len(faces_of_cube)] != faces_of_cube or len(cube_section) != 728:
        sys.exit(f"{PAGE}: the bytes are not those of the faces of samples/cube.map")
    for tree in read:
        found = missed(tree, rng)
        if found:
            sys.exit(f"a segment goes between {found}, which do not touch")
    trees = read + [with_rows(tree, rng) for tree in read]
    made = [treefile.decode(data) for data in (cube(), random_tree(rng, 60, True, 2, treefile.BOUNDS[-1]), long_tree(3000))]
    trees += made
    trees += [tree._replace(version=1, bound=treefile.BOUNDS[0], sections=[]) for tree in trees]
    trees += [with_sections(tree, hulls, rng) for tree in made + read
              for hulls in ([], [(2, made[1])], [(1, rng.choice(made[:2])), (2, rng.choice(read))])]
    for number, tree in enumerate(trees):
        points = [place(rng, rng.choice((600, 2000, tree.bound))) for _ in range(POINTS)]
        found = fault(program, folder, tree, points)
        if found:
            sys.exit(f"tree {number}: {SOURCE}: {found}")


main()
