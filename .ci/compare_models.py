#!/usr/bin/env python3
"""Compares the brush models that `PROGRAM compile --models` writes, and what `PROGRAM inspect` says of them, with plain slow ones
(`.ci/slow_models.py`).

    .ci/compare_models.py PROGRAM [COUNT [SEED]]

COUNT small levels are made, 12 where no number is named: two to four rooms in a row, sealed or not, with entities that have boxes in
them, in doorways, in walls and outside, and brushes of one to seven faces anyhow: slanted, not bounded, flat, empty, at the border of the
cube, and of clip, water, slime, lava and sky. In each the models have to be those of just these entities, with the same boxes and leaves; at
places in and around them the same contents; and where the way from a place to one in a model is clear, the model is drawn there."""

from fractions import Fraction
from pathlib import Path
import random
import subprocess
import sys
import tempfile

sys.path.insert(0, str(Path(__file__).resolve().parent.parent / "tools"))

from made_rooms import FACES, NAMES, lines
from map_reader import contents_of
import slow_models
import treefile

TEXTURES = ["door1_2"] * 4 + ["*water0", "*slime", "*LAVA1", "Sky4", "trigger", "clip", "CLIP"]
# where the rooms lie, and what of the cube is beside them
WEST, SOUTH, LOW, HIGH = -3600, -80, -16, 112
# how many places are asked for in each model, and from how many one looks at it
PLACES, LOOKS = 12, 40


def spelled(number):
    """A number as it stands in a map: exactly, with three decimals at most."""
    number = Fraction(number)
    return str(number) if number.denominator == 1 else f"{float(number):.3f}"


class Maker:
    """Makes the entities of a level by chance; of each it keeps what the map says."""

    def __init__(self, draw, rooms):
        self.draw, self.east = draw, WEST + 112 * rooms + 16

    def place(self):
        """A place near the rooms, whole or in halves."""
        return [Fraction(self.draw.randint(2 * low - 40, 2 * high + 40), 2 // self.draw.choice((1, 2, 2)))
                if self.draw.random() < 0.1 else Fraction(self.draw.randint(2 * low, 2 * high) // 2 * 2 + self.draw.choice((0, 0, 0, 1)), 2)
                for low, high in ((WEST, self.east), (SOUTH, -SOUTH), (LOW, HIGH))]

    def box(self):
        """The faces of a box, each three points."""
        one = [int(number) // 8 * 8 for number in self.place()]
        sizes = [self.draw.choice((8, 16, 16, 32, 64, 112)) for _ in range(3)]
        part = self.draw.choice((0, 0, 0, Fraction(1, 2), Fraction(1, 8)))
        low = [max(-32768, min(32760, number - self.draw.choice((0, 8)) + part)) for number in one]
        high = [min(Fraction(32768), number + size) for number, size in zip(low, sizes)]
        if self.draw.random() < 0.1:
            axis = self.draw.randrange(3)
            high[axis] = Fraction(32768) if self.draw.random() < 0.7 else low[axis]
        values = dict(zip(NAMES, low + high))
        return [[tuple(Fraction(values.get(word, word)) for word in point.split()) for point in face.split(",")] for face in FACES]

    def odd(self):
        """The faces of a brush behind one to seven planes anyhow, most of them around a place."""
        middle, faces = self.place(), []
        while len(faces) < self.draw.choice((1, 2, 4, 5, 6, 7)):
            points = [[number + Fraction(self.draw.randint(-48, 48), self.draw.choice((1, 1, 2))) for number in middle] for _ in range(3)]
            a, b = ([to - at for at, to in zip(points[1], end)] for end in (points[0], points[2]))
            if not any(a[i] * b[j] != a[j] * b[i] for i, j in ((0, 1), (1, 2), (2, 0))):
                continue
            plane = slow_models.inward(points)
            if max(map(abs, plane[:3])) > 2 ** 26:
                continue
            if self.draw.random() < 0.9 and sum(n * x for n, x in zip(plane, middle)) < plane[3]:
                points.reverse()
            faces.append(points)
        return faces

    def entity(self):
        """The brushes of an entity, each its faces and its texture."""
        kind = self.draw.randrange(10)
        if kind == 0:
            return []
        count = self.draw.choice((1, 1, 1, 2, 3))
        textures = ["clip"] if kind == 1 else TEXTURES
        return [((self.box if self.draw.random() < 0.6 else self.odd)(), self.draw.choice(textures)) for _ in range(count)]


def text_of(world, entities):
    """The text of a map."""
    parts = list(world)
    for number, brushes in enumerate(entities):
        parts += ["{", f'"classname" "func_{number}"']
        for faces, texture in brushes:
            parts.append("{")
            for points in faces:
                parts.append(" ".join(f"( {' '.join(map(spelled, point))} )" for point in points) + f" {texture} 0 0 0 1 1")
            parts.append("}")
        parts.append("}")
    return "\n".join(parts) + "\n"


class Level:
    """A level that was compiled: its tree file, and of its entities, from the second on, their planes with what each brush holds."""

    def __init__(self, program, folder, draw):
        rooms = draw.randint(2, 4)
        world = list(lines(rooms, draw.randrange(256)))
        self.first = 2
        if draw.random() < 0.4:
            # without a start nothing is filled
            world, self.first = world[:world.index('"classname" "info_player_start"') - 1], 1
        maker = Maker(draw, rooms)
        made = [maker.entity() for _ in range(draw.randint(2, 6))]
        self.entities = [[([slow_models.inward(points) for points in faces], contents_of(texture)) for faces, texture in brushes]
                         for brushes in made]
        self.program, self.folder, self.draw = program, folder, draw
        Path(folder, "level.map").write_text(text_of(world, made))
        done = self.run("compile", "level.map", "level.tree", "--models")
        if done[0] != 0:
            raise SystemExit(f"a level is not compiled: {done}")
        self.tree = treefile.load(Path(folder, "level.tree"))
        self.bodies = [slow_models.bodies(brushes, self.tree.bound) for brushes in self.entities]

    def run(self, *words):
        """How the program ended, and what it printed."""
        ran = subprocess.run([self.program, *words], cwd=self.folder, capture_output=True, text=True, check=False)
        return ran.returncode, ran.stdout + ran.stderr

    def faults(self):
        """What is wrong with the models."""
        numbers = [number for number, found in enumerate(self.bodies, self.first) if found]
        if [model.entity for model in self.tree.models()] != numbers:
            yield f"there are models of {[model.entity for model in self.tree.models()]}, and should be of {numbers}"
            return
        for number in {0, *range(1, self.first + len(self.bodies) + 1)} - set(numbers):
            if self.run("inspect", "level.tree", f"model={number}") != (9, "query 1 refused: no such model\n"):
                yield f"there should be no model {number}"
        told = self.run("inspect", "level.tree", *(f"model={number}" for number in numbers)) if numbers else (0, "")
        due = "".join(self.line(number) for number in numbers)
        if told != (0, due):
            yield f"of {numbers} is said {told}, and should be {due!r}"
        for model in self.tree.models():
            yield from self.faults_of_places(model)
            yield from self.faults_of_rows(model)

    def line(self, number):
        """What has to be said of a model."""
        found = self.bodies[number - self.first]
        return " ".join(map(str, ["model", number, "box", *slow_models.box(found), "leaves", *slow_models.leaves(found, self.tree)])) + "\n"

    def place(self, model):
        """A place in the model's box or a little beside it, off all planes of its brushes."""
        while True:
            at = [max(1 - self.tree.bound, min(self.tree.bound - 1, self.draw.randint(low - 3, high + 3))) + Fraction(self.draw.randint(-499999, 499999), 1000000)
                  for low, high in zip(model.low, model.high)]
            if not slow_models.is_on_plane(self.entities[model.entity - self.first], at):
                return at

    def faults_of_places(self, model):
        """What is wrong with what is said of places in a model."""
        places = [self.place(model) for _ in range(PLACES)]
        words = [f"model={model.entity},{','.join(f'{float(number):.6f}' for number in place)}" for place in places]
        found = self.bodies[model.entity - self.first]
        due = "".join(f"model {model.entity} {slow_models.contents_at(found, place)}\n" for place in places)
        told = self.run("inspect", "level.tree", *words)
        if told != (0, due):
            yield f"at {words} is said {told}, and should be {due!r}"

    def faults_of_rows(self, model):
        """Where the model is not drawn though the way to a place in it is clear. Ways by chance meet no two planes at once."""
        found = self.bodies[model.entity - self.first]
        inside = [place for place in (self.place(model) for _ in range(PLACES))
                  if any(body.holds((*(int(1000000 * number) for number in place), 1000000)) for body in found)]
        for end in inside[:2]:
            for _ in range(LOOKS):
                begin = [number + Fraction(self.draw.randint(-200 * 997, 200 * 997), 997) for number in end]
                if max(map(abs, begin)) >= self.tree.bound:
                    continue
                passed = [self.tree.leaves[span.leaf] for span in self.tree.spans(begin, end)]
                if passed[0].number is None or any(leaf.contents != passed[0].contents for leaf in passed):
                    continue
                if not self.tree.is_drawn(model, passed[0].number):
                    yield f"from {begin} the model {model.entity} is seen at {end}, and not drawn"


def main():
    program, count, seed = Path(sys.argv[1]).resolve(), *map(int, sys.argv[2:] + ["12", "1"][len(sys.argv) - 2:])
    wrong, models, leaves = 0, 0, 0
    with tempfile.TemporaryDirectory() as folder:
        for number in range(seed, seed + count):
            level = Level(program, folder, random.Random(number))
            for fault in level.faults():
                print(f"level {number}: {fault}"[:1000])
                wrong += 1
            models += len(level.tree.models())
            leaves += sum(len(model.leaves) for model in level.tree.models())
    print(f"{count} levels, {models} models in {leaves} leaves, {wrong} wrong")
    return wrong != 0


if __name__ == "__main__":
    if len(sys.argv) < 2:
        sys.exit(__doc__)
    sys.exit(main())
