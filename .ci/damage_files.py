#!/usr/bin/env python3
"""Compares what `PROGRAM inspect` says of damaged tree files with what the plain slow reader `tools/treefile.py` says.

    .ci/damage_files.py PROGRAM [EDITS [READER [FILE..]]]

Each bit of a small file of both versions is turned; files of other programs, and headers that promise what no file has, are read;
and larger files are edited by chance, 200 times in all where no number is named: bits turned, bytes put in, left out, doubled, moved
and cut off, records exchanged, numbers replaced by such as stand at an end of their type. So are a clip hull, brush models and faces
in a section of a whole file: they are cut off at each byte, and each byte is changed, left out and doubled; and larger ones are edited.
Each has to end with 0 and what the slow reader counts, or with 8 and the slow reader's fault and place, or with 9 where the slow
reader refuses the section; and with a peak of memory that is at most `MOST` times as long as the file, beside what a run takes that
reads an empty one. Where READER is named, the program `file_faults`, listings of portals are damaged too, and as many edited, and
what `READER read` says of them is compared with what `.ci/slow_listing.py` says. Tree files, and listings whose names end with
`.prt`, that are named as FILE are edited in place of those that are made here.
`.ci/compare_files.py` does the rest in one run of a program of its own."""

import gzip
import os
from pathlib import Path
import random
import struct
import subprocess
import sys
import tempfile
import zlib

sys.path.insert(0, str(Path(__file__).resolve().parent.parent / "tools"))

import compare_answers  # noqa: E402
import made_sections  # noqa: E402
from made_trees import cube, long_tree, random_tree, tree_file, written  # noqa: E402
import slow_listing  # noqa: E402
import treefile  # noqa: E402

# the most bytes of memory for each byte of a file that is no tree, and beside them
MOST, BESIDE = 8, 1 << 20
FAULTS = {"short": 1, "magic": 2, "counts": 3, "plane form": 4, "node order": 5, "leaf form": 6, "row form": 7, "trailing": 8,
          "too long": 9, "header form": 10, "section form": 11}
ENDS = (0, 1, 2 ** 7 - 1, 2 ** 8 - 1, 2 ** 31 - 1, 2 ** 31, 2 ** 32 - 1, 2 ** 63 - 1, 2 ** 63, 2 ** 64 - 1)


def due_of_tree(data):
    """How the program has to end on a tree file, and what it has to print."""
    try:
        tree = treefile.decode(data)
    except treefile.Fault as fault:
        return 8, f"tree fault {FAULTS[fault.words]} at byte {fault.place}: {fault.words}\n"
    numbered = sum(leaf.number is not None for leaf in tree.leaves)
    return 0, (f"planes {len(tree.planes)} nodes {len(tree.nodes)} leaves {len(tree.leaves)} numbered {numbered} "
               f"rows {'no' if tree.rows is None else 'yes'}\n")


# what is asked of files with clip hulls, of such with brush models, and of such with faces; of one of the first the answer depends on
# each plane
HULLS_ASKED = ["parts", "hull=2,1,1,1", "hull=1,0.5,-20,33"]
MODELS_ASKED = ["parts", "model=3", "model=3,0.5,-20,33", "model=9"]
FACES_ASKED = ["parts", "faces", "face=0", "face=1", "face=2"]


def due_of(asked):
    """How the program has to end on a tree file that is asked something of its sections, and what it has to print, as a function."""
    def due(data):
        try:
            tree = treefile.decode(data)
        except treefile.Fault:
            return due_of_tree(data)
        return compare_answers.due(tree, compare_answers.parts(tree), asked)
    return due


def due_of_listing(text):
    """How the reader of listings has to end, and what it has to print."""
    try:
        return 0, "leaves {}, portals {}\n".format(*slow_listing.count(text))
    except slow_listing.Fault as fault:
        return 0, f"{fault}\n"


def read(words, name, data):
    """How a program ended on a file of a name, what it printed, the peak of its memory in bytes, and its seconds of processor time."""
    Path(name).write_bytes(data)
    child = subprocess.Popen(words, stdout=subprocess.PIPE)
    text = child.stdout.read().decode()
    _, status, usage = os.wait4(child.pid, 0)
    child.returncode = os.waitstatus_to_exitcode(status)
    child.stdout.close()
    return (child.returncode, text), usage.ru_maxrss * 1024, usage.ru_utime + usage.ru_stime


def turned(data):
    """The file with each bit turned."""
    for place in range(len(data)):
        for bit in range(8):
            yield data[:place] + bytes([data[place] ^ 1 << bit]) + data[place + 1:]


def around(hull, bound=4096):
    """A whole file with some bytes as its first clip hull, and with a second one that is none the worse."""
    return tree_file([], [], [(-1, 0)], [{0}], 2, bound, [(1, hull), (2, tree_file([], [], [(-2, 0)], None, 2, bound))])


# the parts of a small tree
SMALL = [(1, 0, 0, 0), (0, 0, 1, 32)], [(0, -1, 1), (1, -2, -3)], [(-1, 0), (-2, 0), (-1, 0)]


def damaged_hulls():
    """Files in which the bytes of a small clip hull are damaged, one at a time; and in which it is written in another form."""
    hull = tree_file(*SMALL, None, 2, 4096)
    yield around(hull)
    for form in (None, 1), (None, 2, 32768), ([{0}, {1}], 2, 4096), (None, 2, 4096, [(7, b"")]):
        yield around(tree_file(*SMALL, *form))
    yield from map(around, damaged(hull))


def damaged(data):
    """Bytes that are cut off, changed, left out and doubled, one at a time."""
    for at in range(len(data)):
        yield data[:at]
        yield data[:at] + data[at + 1:]
        yield data[:at + 1] + data[at:]
        for byte in {data[at] ^ 1 << bit for bit in range(8)} | {0, 0xff, data[at] ^ 0xff} - {data[at]}:
            yield data[:at] + bytes([byte]) + data[at + 1:]


def with_models(data, bound=4096):
    """A whole file of four leaves in a row with some bytes as its section of brush models."""
    planes, nodes = [(1, 0, 0, 8 * place) for place in range(3)], [(2, -1, 1), (1, -2, 2), (0, -3, -4)]
    return tree_file(planes, nodes, [(-1, 0)] * 4, [{0, 1}, {1}, {2}, {3}], 2, bound, [(3, data), (7, b"abc")])


def damaged_models():
    """Files in which the bytes of two small brush models are damaged, one at a time, and such as are odd in one place."""
    tree = tree_file(*SMALL, None, 2, 4096)
    two = made_sections.stored([(3, (-1, 2, 3), (4, 5, 6), (0, 2, 3), tree), (9, (7, 7, 7), (7, 7, 7), (), tree_file([], [], [(-2, 0)], None, 2, 4096))])
    yield with_models(two)
    yield from map(with_models, damaged(two))
    yield from map(with_models, made_sections.model_sections(random.Random(4), 4, 4096))


def with_faces(data, bound=4096):
    """A whole file of three leaves with some bytes as its section of faces."""
    return tree_file(*SMALL, [{0, 1}, {1}], 2, bound, [(4, data), (7, b"abc")])


def damaged_faces():
    """Files in which the bytes of three small faces are damaged, one at a time, and such as are odd in one place."""
    three = made_sections.stored_faces([(0, 7, 1, [(0, 1, -3), (0, -4, 1), (-6, -3, 0)]), (2, 0, 0, [(1, 0, -4), (1, -4, -2), (-5, 0, -3), (-1, -5, -3)]),
                                        (1, 2 ** 64 - 1, 2 ** 32 - 1, [(0, 1, -3)] * 3)])
    yield with_faces(three)
    yield from map(with_faces, damaged(three))
    yield from map(with_faces, made_sections.face_sections(random.Random(6), treefile.decode(with_faces(three))))


def others():
    """Files of other programs, and such as are nearly none."""
    text = Path(__file__).read_bytes()
    yield from (b"", b"\0", b"Q", b"QMTREE0", b"QMTREE01", b"QMTREE02", b"QMTREE03", bytes(41), bytes(100000), b"\xff" * 100000)
    yield from (text, gzip.compress(text), zlib.compress(text), Path(sys.executable).read_bytes()[:100000])
    yield from (b"IBSP" + struct.pack("<I", 38) + bytes(160), struct.pack("<I", 29) + bytes(120), b"PACK" + bytes(8), b"PRT1\n6\n12\n")
    yield from (b"SQLite format 3\0" + bytes(84), b"\x89PNG\r\n\x1a\n" + bytes(50), b"PK\3\4" + bytes(26), b"%PDF-1.4\n", "\ufeffQMTREE01".encode())


def promises():
    """Headers that promise what is not there."""
    for version in 1, 2:
        rest = struct.pack("<2I", 4096, 0) if version == 2 else b""
        for planes in (0, 1, 4_000_000_000, *ENDS):
            for nodes in (0, 4_000_000_000, *ENDS):
                for leaves in {0, (nodes + 1) % 2 ** 64, 2 ** 64 - 1}:
                    for numbered in {0, leaves, 2 ** 64 - 1}:
                        yield b"QMTREE0%d" % version + struct.pack("<4QB", planes, nodes, leaves, numbered, 0) + rest
    for count in ENDS:
        if count < 2 ** 32:
            yield b"QMTREE02" + struct.pack("<4QB2I", 0, 0, 1, 1, 0, 4096, count) + struct.pack("<iB", -1, 0)
        yield b"QMTREE02" + struct.pack("<4QB2I", 0, 0, 1, 1, 0, 4096, 1) + struct.pack("<iB", -1, 0) + struct.pack("<IQ", 1, count)


def edited(rng, data):
    """A file with one edit or a few."""
    data = bytearray(data)
    for _ in range(rng.choice((1, 1, 1, 2, 5))):
        at, span = rng.randrange(len(data) + 1), rng.choice((1, 1, 4, 5, 8, 20, 300))
        what = rng.randrange(8)
        if what == 0 and at < len(data):
            data[at] ^= 1 << rng.randrange(8)
        elif what == 1:
            data[at:at] = rng.randbytes(span)
        elif what == 2:
            del data[at:at + span]
        elif what == 3:
            data[at:at] = data[at:at + span]
        elif what == 4:
            moved = data[at:at + span]
            del data[at:at + span]
            place = rng.randrange(len(data) + 1)
            data[place:place] = moved
        elif what == 5:
            del data[at:]
        elif what == 6:
            other = rng.randrange(len(data) + 1)
            one, two = data[at:at + span], data[other:other + span]
            if len(one) == len(two) and abs(at - other) >= span:
                data[at:at + span], data[other:other + span] = two, one
        else:
            size = rng.choice((1, 4, 8))
            if at + size <= len(data):
                data[at:at + size] = (rng.choice(ENDS) % 2 ** (8 * size)).to_bytes(size, "little")
    return bytes(data)


def larger_trees():
    """Larger files: of random trees, with and without rows, of both versions, one with sections, and a long one."""
    rng = random.Random(3)
    yield random_tree(rng, 300, True, 1)
    yield random_tree(rng, 700, False, 2, 32768)
    yield random_tree(rng, 250, True, 2, 4096, [(1, rng.randbytes(3000)), (9, b""), (2 ** 32 - 1, bytes(500))])
    yield long_tree(900)


def listing(rng, leaves, portals):
    """A listing of so many leaves and portals."""
    lines = [f"PRT1\n{leaves}\n{portals}\n"]
    for _ in range(portals):
        pair, corners = rng.sample(range(leaves), 2), rng.randrange(3, 9)
        points = "".join("({} {} {} ) ".format(*(coordinate(rng) for _ in range(3))) for _ in range(corners))
        lines.append("{} {} {} {}\n".format(corners, *pair, points))
    return "".join(lines).encode()


def coordinate(rng):
    """A number of a point, whole or with six decimals."""
    whole = rng.randrange(-32767, 32768)
    return f"{whole}" if rng.random() < 0.7 else f"{whole}.{rng.randrange(1000000):06}"


def larger_hulls():
    """Larger files with clip hulls: the random ones would lead nearly all places one way, so their planes are those of boxes."""
    rng = random.Random(9)
    for count in (60, 400):
        hull = treefile.decode(random_tree(rng, count, False, 2, 4096))
        places = [(axis, rng.randrange(-60, 60)) for axis in range(3) for _ in range(4)]
        planes = [(*(int(axis == at) for at in range(3)), place) for axis, place in places]
        nodes = [node._replace(plane=rng.randrange(len(planes))) for node in hull.nodes]
        leaves = [(rng.choice((-1, -2)), 0) for _ in hull.leaves]
        yield around(tree_file(planes, nodes, leaves, None, 2, 4096))


def larger_models():
    """Larger files with brush models."""
    rng = random.Random(10)
    base = treefile.decode(random_tree(rng, 80, True, 2, 4096))
    for count in (2, 30):
        models = [(3 * entity, tuple(rng.randrange(-99, 0) for _ in range(3)), tuple(rng.randrange(0, 99) for _ in range(3)),
                   sorted(rng.sample(range(base.numbered()), rng.randrange(9))), random_tree(rng, rng.choice((1, 9, 60)), False, 2, 4096))
                  for entity in range(1, count + 1)]
        yield written(base._replace(sections=[treefile.Section(3, made_sections.stored(models))]))


def larger_faces():
    """Larger files with faces, of planes with small numbers and with large ones."""
    rng = random.Random(12)
    for bound in treefile.BOUNDS:
        base = treefile.decode(random_tree(rng, 80, True, 2, bound))
        tree = base._replace(planes=made_sections.slanted_planes(rng), nodes=[node._replace(plane=0) for node in base.nodes])
        corners = [corner for corner in ([rng.randrange(-6, len(tree.planes)) for _ in range(3)] for _ in range(900))
                   if treefile.meeting(*map(tree.named_plane, corner))[3]]
        pieces = [(rng.randrange(len(tree.leaves)), rng.randrange(99), rng.randrange(9), rng.choices(corners, k=rng.randrange(3, 9))) for _ in range(60)]
        yield written(tree._replace(sections=[treefile.Section(4, made_sections.stored_faces(pieces))]))


def larger_listings():
    """Larger listings."""
    rng = random.Random(5)
    yield listing(rng, 200, 300)
    yield listing(rng, 9, 900)


def name_of(told):
    """What was found, without its place."""
    return told[1].split(": ")[1].strip() if told[0] in (8, 9) else told[1].split(" at byte ")[0] if " at byte " in told[1] else "read"


class Damage:
    """What became of damaged files of one kind."""

    def __init__(self, words, name, due):
        self.words, self.name, self.due, self.count, self.wrong = words, name, due, 0, 0
        _, self.least, _ = read(words, name, b"")

    def is_too_much(self, peak, size):
        """Whether a peak is more than may be. It counts what this process had at its start, which grows, so that is asked again."""
        most = BESIDE + MOST * size
        if peak > self.least + most:
            _, self.least, _ = read(self.words, self.name, b"")
        return peak > self.least + most

    def try_all(self, kind, files):
        """Reads each of some files."""
        here, found, longest = 0, {}, 0
        for data in files:
            told, peak, seconds = read(self.words, self.name, data)
            here, longest = here + 1, max(longest, seconds)
            found[name_of(told)] = found.get(name_of(told), 0) + 1
            if told != self.due(data) or self.is_too_much(peak, len(data)):
                self.wrong += 1
                print(f"{kind} {here}, {len(data)} bytes: {told}, {peak} bytes of memory, and due is {self.due(data)}")
        print(f"{kind}: {here} files, {longest:.2f} s at most;", ", ".join(f"{name} {number}" for name, number in sorted(found.items())), flush=True)
        self.count += here


def edits_of(files, count):
    """So many edits of some files, or none where there is no file."""
    rng = random.Random(7)
    return (edited(rng, rng.choice(files)) for _ in range(count if files else 0))


def try_trees(program, files, edits):
    """Damages tree files."""
    damage = Damage([program, "inspect", "damaged.tree", "count"], "damaged.tree", due_of_tree)
    damage.try_all("bits turned", (data for version in (1, 2) for data in turned(cube(version))))
    damage.try_all("other files", others())
    damage.try_all("promises", promises())
    damage.try_all("edits", edits_of(files, edits))
    return damage


def try_hulls(program, edits):
    """Damages clip hulls in sections of tree files."""
    damage = Damage([program, "inspect", "damaged.tree", *HULLS_ASKED], "damaged.tree", due_of(HULLS_ASKED))
    damage.try_all("bytes of a clip hull", damaged_hulls())
    damage.try_all("edits of clip hulls", edits_of([*larger_hulls()], edits))
    return damage


def try_models(program, edits):
    """Damages brush models in sections of tree files."""
    damage = Damage([program, "inspect", "damaged.tree", *MODELS_ASKED], "damaged.tree", due_of(MODELS_ASKED))
    damage.try_all("bytes of brush models", damaged_models())
    damage.try_all("edits of brush models", edits_of([*larger_models()], edits))
    return damage


def try_faces(program, edits):
    """Damages faces in sections of tree files."""
    damage = Damage([program, "inspect", "damaged.tree", *FACES_ASKED], "damaged.tree", due_of(FACES_ASKED))
    damage.try_all("bytes of faces", damaged_faces())
    damage.try_all("edits of faces", edits_of([*larger_faces()], edits))
    return damage


def try_listings(reader, files, edits):
    """Damages listings."""
    damage = Damage([reader, "read", "damaged.prt"], "damaged.prt", due_of_listing)
    damage.try_all("bits of a listing turned", turned(listing(random.Random(2), 4, 3)))
    damage.try_all("edits of listings", edits_of(files, edits))
    return damage


def main(program, edits=200, reader=None, *named):
    program, edits, damages = os.path.abspath(program), int(edits), []
    trees = [Path(name).read_bytes() for name in named if not name.endswith(".prt")] if named else [*larger_trees()]
    listings = [Path(name).read_bytes() for name in named if name.endswith(".prt")] if named else [*larger_listings()]
    reader = reader and os.path.abspath(reader)
    with tempfile.TemporaryDirectory() as folder:
        os.chdir(folder)
        damages.append(try_trees(program, trees, edits))
        damages.append(try_hulls(program, edits))
        damages.append(try_models(program, edits))
        damages.append(try_faces(program, edits))
        if reader:
            damages.append(try_listings(reader, listings, edits))
        os.chdir("/")
    wrong = sum(damage.wrong for damage in damages)
    print(f"{sum(damage.count for damage in damages)} files read, {wrong} wrong")
    return wrong != 0


if __name__ == "__main__":
    if len(sys.argv) < 2:
        sys.exit(__doc__)
    sys.exit(main(*sys.argv[1:]))
