#!/usr/bin/env python3
"""Compares the faces that `PROGRAM compile --faces` writes, and what `PROGRAM inspect` says of them, with plain slow ones
(`.ci/slow_faces.py`).

    .ci/compare_faces.py PROGRAM [COUNT [SEED]]

COUNT small levels are made, 5 if no number is named: a room, sealed or in the open, with brushes in it in an order by chance: two that
overlap on one plane, three that tile one, one with two faces on one plane, some in water, under sky, in walls and at the border of the
cube, slanted ones, flat ones and clip. In each the areas of the pieces have to sum to those of the contacts, in fractions, and no two
pieces overlap; each names the leaf, the brush and the face that the definition gives; and its corners go round the right way, with the
planes of their edges. `inspect` has to print each piece as `tools/treefile.py` reads it. Then pieces are made wrong, one in each way, and
that has to be found."""

from fractions import Fraction
from pathlib import Path
import random
import subprocess
import sys
import tempfile

sys.path.insert(0, str(Path(__file__).resolve().parent.parent / "tools"))

import compare_answers
from compare_models import spelled
from made_rooms import FACES, NAMES
from map_reader import contents_of
import slow_faces
from slow_models import inward
import treefile

# in how many ways pieces are made wrong
WAYS = 8
# half the width of the room, its height, and how thick its walls are
WIDE, HIGH, THICK = 128, 96, 16
BOUND = 32768
START = '{\n"classname" "info_player_start"\n"origin" "0 0 24"\n}\n'


def box(low, high, texture="stone"):
    """A box: its faces, each three points and a texture."""
    values = dict(zip(NAMES, (*low, *high)))
    return [([tuple(Fraction(values.get(word, word)) for word in point.split()) for point in face.split(",")], texture) for face in FACES]


def room():
    """The six walls of the room, with the sky for a ceiling."""
    far = WIDE + THICK
    yield box((-far, -far, -THICK), (far, far, 0), "floor")
    yield box((-far, -far, HIGH), (far, far, HIGH + THICK), "sky1")
    for axis in range(2):
        for low, high in (-far, -WIDE), (WIDE, far):
            ends = [[-far, -far, 0], [far, far, HIGH]]
            ends[0][axis], ends[1][axis] = low, high
            yield box(*ends, f"wall{axis}")


def moved(brush, way):
    """A brush at another place."""
    return [([tuple(a + b for a, b in zip(point, way)) for point in points], texture) for points, texture in brush]


def overlapping():
    """Two boxes whose tops and one side lie on one plane, and overlap there."""
    yield box((0, 0, 0), (48, 32, 24), "first")
    yield box((24, 0, 0), (64, 24, 24), "second")


def tiling():
    """Three boxes whose tops tile a square."""
    yield box((0, 0, 0), (32, 16, 8), "one")
    yield box((0, 16, 0), (16, 32, 8), "two")
    yield box((16, 16, 0), (32, 32, 8), "three")


def doubled():
    """A box with two faces on the plane of its top, each with a texture, and a wedge that shares the plane of its slope."""
    brush = box((0, 0, 0), (40, 24, 16), "plain")
    top = [tuple(Fraction(number) for number in point) for point in ((9, 9, 16), (9, 12, 16), (30, 9, 16))]
    yield brush[:3] + [(top, "again")] + brush[3:]
    yield wedge()


def wedge():
    """A box that is cut aslant."""
    slope = [tuple(Fraction(number) for number in point) for point in ((40, 0, 0), (40, 24, 0), (16, 0, 16))]
    return box((0, 0, 0), (40, 24, 32), "wedge") + [(slope[::-1], "slope")]


def pool():
    """A box that stands in water, and reaches out of it."""
    yield box((0, 0, 0), (64, 64, 16), "*water0")
    yield box((16, 16, 0), (48, 32, 24), "stone")


def at_the_border(draw):
    """A box at the border of the cube, or over it."""
    axis, way = draw.randrange(3), draw.choice((-1, 1))
    low, high = [-40, -24, 200], [24, 40, 264]
    low[axis], high[axis] = (BOUND - 64, BOUND) if way > 0 else (-BOUND, 64 - BOUND)
    yield box(low, high, "far")


def odd(draw):
    """A brush behind four to seven planes anyhow around a place."""
    middle, faces = [Fraction(draw.randint(-WIDE, WIDE)), Fraction(draw.randint(-WIDE, WIDE)), Fraction(draw.randint(0, HIGH))], []
    while len(faces) < draw.choice((4, 5, 6, 7)):
        points = [tuple(number + Fraction(draw.randint(-40, 40), draw.choice((1, 1, 2))) for number in middle) for _ in range(3)]
        a, b = ([to - at for at, to in zip(points[1], end)] for end in (points[0], points[2]))
        if any(a[i] * b[j] != a[j] * b[i] for i, j in ((0, 1), (1, 2), (2, 0))):
            plane = inward(points)
            if max(map(abs, plane[:3])) <= 2 ** 26:
                is_out = sum(n * x for n, x in zip(plane, middle)) < plane[3]
                faces.append((points[::-1] if is_out else points, f"odd{len(faces)}"))
    return faces


def plain(draw):
    """A box anyhow, also across a wall, flat at times, in eighths at times, of any contents and of clip."""
    low = [draw.randrange(-WIDE - 8, WIDE, 8), draw.randrange(-WIDE - 8, WIDE, 8), draw.randrange(-8, HIGH, 8)]
    part = draw.choice((0, 0, 0, Fraction(1, 2), Fraction(1, 8)))
    high = [number + draw.choice((0, 8, 16, 16, 32, 64)) if draw.random() < 0.1 else number + draw.choice((8, 16, 32, 64)) for number in low]
    return box([number + part for number in low], [number + part for number in high],
               draw.choice(["brick"] * 6 + ["*lava1", "*slime", "sky2", "clip", "*water1"]))


def brushes_of(draw):
    """The brushes of a level, in an order by chance."""
    found = list(room())
    for some in overlapping(), tiling(), doubled(), pool():
        way = [draw.randrange(-WIDE, WIDE - 32, 8), draw.randrange(-WIDE, WIDE - 32, 8), draw.choice((0, 0, 8, 24))]
        found += [moved(brush, way) for brush in some]
    found += at_the_border(draw)
    found += [odd(draw) for _ in range(draw.randint(0, 2))]
    found += [plain(draw) for _ in range(draw.randint(1, 4))]
    draw.shuffle(found)
    return found


def text_of(brushes, has_start):
    """The text of a map."""
    parts = ['{\n"classname" "worldspawn"']
    for brush in brushes:
        lines = (" ".join(f"( {' '.join(map(spelled, point))} )" for point in points) + f" {texture} 0 0 0 1 1" for points, texture in brush)
        parts += ["{", *lines, "}"]
    return "\n".join([*parts, "}\n"]) + (START if has_start else "")


class Level:
    """A level that was compiled: its tree file, the brushes of its map, and its pieces."""

    def __init__(self, program, folder, draw, has_start):
        self.program, self.folder, made = program, folder, brushes_of(draw)
        Path(folder, "level.map").write_text(text_of(made, has_start))
        done = self.run("compile", "level.map", "level.tree", "--fast", "--faces")
        if done[0] != 0:
            raise SystemExit(f"a level is not compiled: {done}")
        self.tree = treefile.load(Path(folder, "level.tree"))
        self.brushes = slow_faces.brushes_of([([points for points, _ in brush], contents_of(brush[0][1])) for brush in made], self.tree.bound)
        self.contacts, self.pieces = list(slow_faces.contacts(self.tree)), self.tree.faces()

    def run(self, *words):
        """How the program ended, and what it printed."""
        ran = subprocess.run([self.program, *words], cwd=self.folder, capture_output=True, text=True, check=False)
        return ran.returncode, ran.stdout + ran.stderr

    def faults(self):
        """What is wrong."""
        yield from slow_faces.faults(self.tree, self.brushes, self.contacts, self.pieces)
        words = ["faces", *(f"face={number}" for number in range(len(self.pieces)))]
        for asked in words, [f"face={len(self.pieces)}"]:
            if self.run("inspect", "level.tree", *asked) != compare_answers.due(self.tree, compare_answers.parts(self.tree), asked):
                yield f"inspect says something else than the slow reader of {len(asked)} queries"


def turned_round(piece):
    """The piece with its corners the other way round."""
    return piece._replace(corners=[(own, after, before) for own, before, after in [piece.corners[0], *piece.corners[:0:-1]]])


def begun_elsewhere(piece):
    """The piece with its corners from the second one on."""
    return piece._replace(corners=piece.corners[1:] + piece.corners[:1])


def with_the_wrong_edge(piece):
    """The piece with the plane of a neighbouring edge at its first corner: the corner is another one, or is none."""
    (own, _, after), (_, _, beyond) = piece.corners[:2]
    return piece._replace(corners=[(own, beyond, after), *piece.corners[1:]])


def planted(tree, brushes, pieces, draw):
    """The pieces with one thing wrong, in each of some ways, by the name of the way."""
    at = draw.randrange(len(pieces))
    piece, before, behind = pieces[at], pieces[:at], pieces[at + 1:]
    leaves = [leaf for leaf, what in enumerate(tree.leaves) if what.number is not None and leaf != piece.leaf]
    yield "a piece dropped", before + behind
    yield "a piece twice", [*before, piece, piece, *behind]
    yield "corners the other way round", [*before, turned_round(piece), *behind]
    yield "corners from the second on", [*before, begun_elsewhere(piece), *behind]
    yield "another leaf", [*before, piece._replace(leaf=draw.choice(leaves)), *behind]
    yield "another face", [*before, piece._replace(face=piece.face + 1), *behind]
    wrong = with_the_wrong_edge(piece)
    if treefile.meeting(*map(tree.named_plane, wrong.corners[0]))[3]:
        yield "the plane of another edge", [*before, wrong, *behind]
    for at, piece in enumerate(pieces):
        points = [tree.corner(corner) for corner in piece.corners]
        into = tuple(-part for part in brushes[piece.brush].planes[piece.face])
        for number, other in enumerate(brushes):
            face = slow_faces.owning_face(other, into)
            if number > piece.brush and face is not None and all(slow_faces.value(plane, point) >= 0 for plane in other.planes for point in points):
                yield "the later brush", [*pieces[:at], piece._replace(brush=number, face=face), *pieces[at + 1:]]
                return


def main():
    program, count, seed = Path(sys.argv[1]).resolve(), *map(int, sys.argv[2:] + ["5", "1"][len(sys.argv) - 2:])
    wrong, pieces, plants = 0, 0, {}
    with tempfile.TemporaryDirectory() as folder:
        for number in range(seed, seed + count):
            draw = random.Random(number)
            level = Level(program, folder, draw, number % 2 == 1)
            pieces += len(level.pieces)
            for fault in level.faults():
                print(f"level {number}: {fault}"[:1000])
                wrong += 1
            for name, others in planted(level.tree, level.brushes, level.pieces, draw):
                plants[name] = plants.get(name, 0) + 1
                if not any(True for _ in slow_faces.faults(level.tree, level.brushes, level.contacts, others)):
                    print(f"level {number}: {name} is not found")
                    wrong += 1
    print(f"{count} levels, {pieces} pieces, {sum(plants.values())} made wrong in {len(plants)} ways of {WAYS}, {wrong} wrong")
    return wrong != 0 or len(plants) < WAYS


if __name__ == "__main__":
    if len(sys.argv) < 2:
        sys.exit(__doc__)
    sys.exit(main())
