#!/usr/bin/env python3
"""Holds levels for engines, as `tools/qmbsp` writes them, to the map and the tree file from which they were made.

    .ci/check_bsp.py MAP TREE LEVEL.bsp.. [--texels N] [--plant]

Levels of the two forms are read by a reader of this check's own. Of each: the layout of the file; leaves, contents and boxes at places by
chance, and rows, against the tree; hulls against moved brushes; brush models; faces with their planes, corners, edges, nodes, marks
and textures; that each change of contents along rays has its face; and the entities. Of two levels: that they say the same.

With --plant the last level is damaged in many ways, one after another, and each has to be found."""

from itertools import islice
from pathlib import Path
import random
import sys

sys.path.insert(0, str(Path(__file__).resolve().parent.parent / "tools"))

from below import contents_below
from bodies import bodies, drawn
import bsp_plants
import bsp_reader
import bsp_space as space
import bsp_surfaces as surfaces
import map_reader
from surfaces import OPEN
import treefile

TEXELS, MOST = 256, 5
# entities that are there for editors alone
GROUPS = ("func_group", "func_detail")


class Source:
    """What a level is made of."""

    def __init__(self, map_name, tree_name):
        self.entities, self.tree = map_reader.load(map_name), treefile.load(tree_name)
        found = bodies(self.tree, contents_below(self.tree), OPEN)
        self.corners = {leaf: sorted(set(drawn(faces))) for leaf, faces in found}
        # the entities whose brushes are models, from the first one on
        self.models = [entity for entity in self.entities[1:] if entity.brushes and entity.value("classname") not in GROUPS]


def faults_of_entities(level, source):
    """Where the entities are not those of the map: with a model in place of brushes, a world that is called so, without an editor's
    groups, and otherwise as they are."""
    text = level.entities
    if text.count(0) != 1 or text[-1]:
        yield "the entities do not end with the one byte 0"
    found, models = map_reader.entities_of(text.rstrip(b"\0").decode("latin-1")), 0
    wanted = [entity for entity in source.entities if entity.value("classname") not in GROUPS]
    if len(found) != len(wanted):
        yield f"there are {len(found)} entities, and {len(wanted)} in the map"
        return
    for number, (entity, own) in enumerate(zip(found, wanted)):
        pairs = own.pairs
        if number and own.brushes:
            models += 1
            pairs = [pair for pair in pairs if pair[0] != "model"] + [("model", f"*{models}")]
        if not number and own.value("classname") is None:
            pairs = pairs + [("classname", "worldspawn")]
        if sorted(entity.pairs) != sorted(pairs):
            yield f"entity {number} has the pairs {entity.pairs}, and not {pairs}"
    if len(level.models) != 1 + models:
        yield f"there are {len(level.models)} models, and {models} entities with brushes"


def faults_of_models(level, source, rng):
    """What is wrong with the brush models."""
    for number, entity in enumerate(source.models, 1):
        yield from space.faults_of_model(level, number, entity.brushes, rng)
    for number, model in enumerate(level.models):
        for face in model.faces:
            for corner in level.corners(face):
                if any(not a - 1.01 <= b <= c + 1.01 for a, b, c in zip(model.low, corner, model.high)):
                    yield f"the corner {corner} of face {face} is not in the box of model {number}"


def faults_of_faces(level, source, texels):
    """What is wrong with the faces, one by one."""
    of_world = [face for brush in source.entities[0].brushes for face in brush.faces]
    for number, model in enumerate(level.models):
        faces = of_world if not number else [face for brush in source.models[number - 1].brushes for face in brush.faces]
        for face in model.faces:
            yield from surfaces.faults_of_shape(level, face)
            yield from surfaces.faults_of_texture(level, face, faces, texels)


def groups(level, source, texels, seed):
    """The faults of a level, those of one kind after another. What comes later may rest on what came before."""
    rng = random.Random(seed)
    tree, corners = source.tree, source.corners
    yield space.faults_of_order(level)
    yield surfaces.faults_of_planes(level)
    yield surfaces.faults_of_edges(level)
    yield surfaces.faults_of_nodes(level)
    yield surfaces.faults_of_textures(level)
    yield faults_of_entities(level, source)
    yield space.faults_of_node_planes(level, tree)
    yield space.faults_of_leaves(level, tree, corners, rng)
    yield space.faults_of_rows(level, tree)
    yield space.faults_of_boxes(level, corners, tree)
    yield space.faults_of_hulls(level, tree, corners, source.entities[0], rng)
    yield faults_of_models(level, source, rng)
    yield faults_of_faces(level, source, texels)
    yield surfaces.faults_of_marks(level, rng)
    yield surfaces.faults_of_sight(level, corners, tree, rng)
    for model in level.models:
        yield surfaces.faults_of_joints(level, model.faces)


def faults(data, source, texels, seed=7):
    """What is wrong with the bytes of a level; the first few faults of the first kind that is met."""
    try:
        level = bsp_reader.Level(data)
        for found in groups(level, source, texels, seed):
            some = list(islice(found, MOST))
            if some:
                return some
    except bsp_reader.Fault as fault:
        return [str(fault)]
    except (IndexError, ValueError) as fault:
        return [f"a number of the file leads nowhere: {fault}"]
    return []


def differences(first, second):
    """Where two levels of different forms do not say the same. Boxes have whole numbers in one of the forms."""
    for name in ("leaves", "nodes"):
        if any(not is_box_alike(one, other) for one, other in zip(getattr(first, name), getattr(second, name))):
            yield f"boxes of {name} differ"
    for name in ("entities", "visibility", "light", "planes", "vertices", "mappings", "faces", "clip_nodes", "marks", "edges",
                 "face_edges", "models", "textures"):
        if getattr(first, name) != getattr(second, name):
            yield f"{name} differ"
    if [(leaf.contents, leaf.row, leaf.marks) for leaf in first.leaves] != [(leaf.contents, leaf.row, leaf.marks) for leaf in second.leaves]:
        yield "leaves differ"
    if [(node.plane, node.children, node.faces) for node in first.nodes] != [(node.plane, node.children, node.faces) for node in second.nodes]:
        yield "nodes differ"


def is_box_alike(one, other):
    """Whether the boxes of two leaves or nodes differ by less than what rounding does. Beyond the numbers of 16 bits they may."""
    return all(abs(a - b) < 1.01 or max(abs(a), abs(b)) >= space.FARTHEST for a, b in zip(one.low + one.high, other.low + other.high))


def missed(name, source, texels):
    """The plants that were not found in a level, or were not planted."""
    data = Path(name).read_bytes()
    for planted, damaged in bsp_plants.plants(data, random.Random(5)):
        if damaged is None or damaged == data:
            yield f"{name}: could not plant: {planted}"
        elif not faults(damaged, source, texels):
            yield f"{name}: was not found: {planted}"


def words_of(words):
    """The files, the most texels, and whether faults are planted; None where the words are no call."""
    texels, plant = TEXELS, "--plant" in words
    words = [word for word in words if word != "--plant"]
    if "--texels" in words[:-1]:
        at = words.index("--texels")
        texels = int(words[at + 1])
        del words[at:at + 2]
    return (words, texels, plant) if len(words) > 2 else None


def main():
    asked = words_of(sys.argv[1:])
    if asked is None:
        sys.exit("usage: check_bsp.py MAP TREE LEVEL.bsp.. [--texels N] [--plant]")
    (map_name, tree_name, *names), texels, plant = asked
    source = Source(map_name, tree_name)
    found = [f"{names[0]}: {fault}" for fault in faults(Path(names[0]).read_bytes(), source, texels)]
    if not found:
        first, *others = [bsp_reader.load(name) for name in names]
        found = [f"{names[0]} and another form: {fault}" for other in others for fault in differences(first, other)]
    if plant and not found:
        found = list(missed(names[0], source, texels))
    sys.exit("\n".join(found[:20]) or 0)


if __name__ == "__main__":
    main()
