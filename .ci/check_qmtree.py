#!/usr/bin/env python3
"""Compares what docs/qmtree.h finds in tree files, by `.ci/try_qmtree.c`, with what the slow reader `tools/treefile.py` does.

    .ci/check_qmtree.py FOLDER TREE..

The trees are files of FOLDER, as the compiler wrote them. Beside these stand files that are made here, with rows, clip hulls, brush
models and faces, good ones and such as are odd in one place; some of them with each byte changed, left out and doubled, and cut off at each;
and edits by chance. The program is compiled as C and as C++ without a warning. It runs with every access to memory checked, if
the compiler can do that."""

from fractions import Fraction
from pathlib import Path
import random
import shutil
import struct
import subprocess
import sys

sys.path.insert(0, str(Path(__file__).resolve().parent.parent / "tools"))

from compare_files import alterations, altered_cubes, odd_sections
from damage_files import edited, others, promises
import made_sections
from made_trees import CODES, cube, long_tree, random_tree, tree_file, written
import treefile

SOURCE, PAGES = Path(".ci/try_qmtree.c"), Path("docs")
STRICT = ["-Wall", "-Wextra", "-Wpedantic", "-Werror", f"-I{PAGES}"]
CHECKED = ["-g", "-fsanitize=address,undefined", "-fno-sanitize-recover=all"]
# how many edits by chance there are of each of some files
EDITS = 400
# the places that the program asks for
PLACES = ((1, 1, 1), (0, 0, 0), (Fraction(-81, 2), Fraction(1201, 4), 17), (-4095, 4000, Fraction(-7999, 2)), (33, -20, 60), (2000, -7, 64))


def compiled(folder):
    """The program."""
    program = folder / "try_qmtree"
    subprocess.run(["cc", "-std=c99", *STRICT, "-Wconversion", "-c", "-o", folder / "try.o", SOURCE], check=True)
    if shutil.which("c++"):
        subprocess.run(["c++", "-std=c++11", *STRICT, "-x", "c++", "-c", "-o", folder / "try.o", SOURCE], check=True)
    else:
        print("no compiler for C++ is here: docs/qmtree.h was tried as C alone")
    checked = subprocess.run(["cc", "-std=c99", "-O1", *STRICT, *CHECKED, "-o", program, SOURCE], capture_output=True, check=False)
    if checked.returncode:
        print("accesses to memory are not checked: the compiler cannot do that")
        subprocess.run(["cc", "-std=c99", "-O1", *STRICT, "-o", program, SOURCE], check=True)
    return program


def struck(tree, first, second):
    """At which part of a segment something solid is met, or 1."""
    low = 0
    for leaf, to in tree.spans(first, second):
        if tree.leaves[leaf].contents == "solid":
            return low
        low = to
    return low


def places(tree):
    """What is printed of the places."""
    for place, end in zip(PLACES, PLACES[1:] + PLACES[:1]):
        leaf = tree.leaf_at(place)
        contents, filled, number = tree.leaves[leaf]
        yield f"at {leaf} {CODES[contents]} {int(filled)} {-1 if number is None else number} struck", float(struck(tree, place, end))


def rows(tree):
    """What is printed of the rows."""
    if tree.rows is None:
        return "no rows"
    return f"rows {sum(31 * own + other for own in range(len(tree.rows)) for other in tree.row(own)) % 2 ** 64}"


def hulls(tree):
    """What is printed of the clip hulls, and of sections that are none."""
    for which in range(4):
        try:
            hull = tree.hull(which) if which in treefile.HULLS else None
            yield "hull " + ("" if hull else "no part")
        except (treefile.NoPart, treefile.BadPart) as fault:
            hull = None
            yield "hull " + ("no part" if isinstance(fault, treefile.NoPart) else "bad part")
        yield from places(hull) if hull else ()


def models(tree):
    """What is printed of the brush models."""
    try:
        found = treefile.read_models(tree.part(treefile.MODELS), tree.bound, tree.numbered())
    except treefile.NoPart:
        yield "models: no part - 0"
        return
    except treefile.Fault as fault:
        yield f"models: bad part {fault.words} {fault.place}"
        return
    for model in found:
        drawn = [int(tree.rows is not None and tree.is_drawn(model, own)) for own in range(tree.numbered())]
        yield " ".join(map(str, ["model", model.entity, "box", *model.low, *model.high, "leaves", *model.leaves, "drawn", *drawn, "there 1"]))
        yield from places(model.tree)


def faces(tree):
    """What is printed of the faces."""
    try:
        found = treefile.read_faces(tree.part(treefile.FACES), tree)
    except treefile.NoPart:
        yield "faces: no part - 0"
        return
    except treefile.Fault as fault:
        yield f"faces: bad part {fault.words} {fault.place}"
        return
    for piece in found:
        yield f"leaf {piece.leaf} brush {piece.brush} face {piece.face} corners {len(piece.corners)}"
        for corner in piece.corners:
            for number, part in zip(corner, tree.corner(corner)):
                yield f"plane {number} part", float(part)


def due(data):
    """What is printed of a file: texts, and of segments each a text and a number."""
    try:
        tree = treefile.decode(data)
    except treefile.Fault as fault:
        return [str(fault)]
    first = (f"version {tree.version} bound {tree.bound} planes {len(tree.planes)} nodes {len(tree.nodes)} leaves {len(tree.leaves)} "
             f"numbered {tree.numbered()} sections {len(tree.sections)}")
    return [first, rows(tree), *places(tree), *hulls(tree), *models(tree), *faces(tree)]


def fits(line, wanted):
    """Whether a line is what it should be."""
    if isinstance(wanted, str):
        return line == wanted
    text, _, number = line.rpartition(" ")
    return text == wanted[0] and abs(float(number) - wanted[1]) <= max(1e-8, 4e-16 * abs(wanted[1]))


def with_sections(rng, bound=treefile.BOUNDS[-1]):
    """Files with sections of all sorts."""
    base = treefile.decode(random_tree(rng, 30, True, 2, bound))
    for data in made_sections.model_sections(rng, base.numbered(), bound):
        yield written(base._replace(sections=[treefile.Section(treefile.MODELS, data), treefile.Section(5, b"abc")]))
    # planes anyhow, some of them far outside, and such as nearly have one direction
    for planes in base.planes, made_sections.slanted_planes(rng):
        tree = base._replace(planes=planes, nodes=[node._replace(plane=0) for node in base.nodes])
        for data in made_sections.face_sections(rng, tree):
            yield written(tree._replace(sections=[treefile.Section(treefile.FACES, data)]))
    for sections in made_sections.hulls(rng):
        yield written(base._replace(sections=[treefile.Section(*section) for section in sections]))


def small():
    """A small file with a clip hull, two brush models and two faces."""
    planes, nodes, leaves = [(1, 0, 0, 0), (0, 0, 1, 32)], [(0, -1, 1), (1, -2, -3)], [(-1, 0), (-2, 0), (-1, 0)]
    tree = tree_file(planes, nodes, leaves, None, 2, 4096)
    section = made_sections.stored([(1, (-1, 2, 3), (4, 5, 6), (0, 1), tree), (3, (0, 0, 0), (0, 0, 0), (1,), tree)])
    faces = made_sections.stored_faces([(0, 7, 1, [(0, 1, -3), (0, -4, 1), (-6, -3, 0)]), (2, 0, 0, [(1, 0, -4), (1, -4, -2), (1, 0, -3)])])
    return tree_file(planes, nodes, leaves, [{0, 1}, {1}], 2, 4096, [(1, tree), (3, section), (4, faces)])


def odd_runs():
    """Files whose rows have runs of zeros in two parts, where these have to be one, and where they may not be."""
    for count, run, others in (40, b"\0\4", (b"\0\1\0\3", b"\0\3\0\1")), (2100, b"\0\xff\0\6", (b"\0\xfe\0\7", b"\0\6\0\xff")):
        data = long_tree(count)
        before, _, behind = data.partition(b"\1" + run + bytes((1 << count % 8,)))
        yield data
        yield from (before + b"\1" + other + bytes((1 << count % 8,)) + behind for other in others)


def files(named):
    """All files that are tried."""
    rng = random.Random(13)
    kept = [name.read_bytes() for name in named]
    made = [*kept, *with_sections(rng), cube(1), cube(2), random_tree(rng, 60, True), random_tree(rng, 60, False, 1), long_tree(900)]
    yield from made
    yield from (data for data, _ in (*altered_cubes(), *odd_sections()))
    yield from odd_runs()
    yield from others()
    yield from promises()
    for data in cube(2), small():
        yield from alterations(data, 0)
    for data in made:
        if len(data) < 40000:
            yield from (edited(rng, data) for _ in range(EDITS // len(made) + 1))
    yield from (edited(rng, small()) for _ in range(EDITS))


def main():
    folder = Path(sys.argv[1]).resolve()
    program, tried = compiled(folder), list(files([folder / name for name in sys.argv[2:]]))
    text = b"".join(struct.pack("<Q", len(data)) + data for data in tried)
    done = subprocess.run([program], input=text, capture_output=True, check=False)
    if done.returncode:
        sys.exit(f"docs/qmtree.h: the program ended with {done.returncode}: {done.stderr.decode()[:3000]}")
    found = done.stdout.decode().split("\n.\n")[:-1]
    if len(found) != len(tried):
        sys.exit(f"docs/qmtree.h: {len(found)} of {len(tried)} files were read")
    for number, (data, printed) in enumerate(zip(tried, found)):
        lines, wanted = printed.split("\n"), due(data)
        if len(lines) != len(wanted) or not all(map(fits, lines, wanted)):
            other = next((pair for pair in zip(lines, wanted) if not fits(*pair)), (lines[len(wanted):], wanted[len(lines):]))
            sys.exit(f"docs/qmtree.h: file {number}, {len(data)} bytes: it finds {other[0]!r}, and should find {other[1]!r}")
    print(f"docs/qmtree.h: {len(tried)} files read alike")


if __name__ == "__main__":
    main()
