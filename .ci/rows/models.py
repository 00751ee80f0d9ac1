"""Brush models: the section of a room with a cube, worked out by hand, what models are in other worlds, and sections that are none."""

from pathlib import Path
import struct

from rows.asked import CORNER, SEALED
from rows.cube_files import EMPTY, NODES, SMALL_TREE, SOLID, TEXT, TREE
from rows.hulls import is_same, plain_tree, with_sections
from rows.leaks import LEAKS
from rows.table import Beside, Lines, Row
from rows.worlds import APART, CUBE, INSIDE, OPPOSED, brush

# the room as an editor writes it, whose entity 2 is a door
DOORED = Path(__file__).parent.parent.parent.joinpath("samples/room.map").read_bytes()


def cube_tree(**form):
    """The plain tree of the cube."""
    planes = [(*(int(axis == at) for at in range(3)), place) for axis in range(3) for place in (0, 64)]
    nodes = [NODES[at:at + 20] for at in range(0, len(NODES), 20)]
    return plain_tree(planes, nodes, [EMPTY] * 3 + [SOLID] + [EMPTY] * 3, **form)


def model(entity, box, leaves, tree):
    """A model as a section keeps it: its entity, the low and the high ends of its box, its leaves, and its tree."""
    return struct.pack("<Q6i", entity, *box) + struct.pack(f"<{len(leaves) + 1}Q", len(leaves), *leaves) + struct.pack("<Q", len(tree)) + tree


def models(*each, count=None):
    """The bytes of a section of models."""
    return struct.pack("<I", len(each) if count is None else count) + b"".join(each)


def entity(*brushes, name="func_door"):
    """An entity with brushes."""
    return ('{\n"classname" "' + name + '"\n' + "".join(brushes) + "}\n").encode()


DOOR = models(model(2, CUBE, [0], cube_tree()))
LOW = (-32, -64, 0, 16, -32, 64)
NO_MODEL = "no such model"

# a world, the queries, and the answers
ASKED = [
    (DOORED, "model=2 model=2,32,32,32 model=2,-1,0,0", "model 2 box 0 0 0 64 64 64 leaves 0\nmodel 2 solid\nmodel 2 empty\n"),
    # three rooms round a corner, with a box on the floor of two of them
    (CORNER + entity(brush(LOW)), "model=2 sees=1,3", "model 2 box -32 -64 0 16 -32 64 leaves 2 3 4\nyes\n"),
    # water, the strongest of two, and what lies on a plane of the model's tree
    (SEALED + entity(brush(CUBE, "*water1")), "model=2,32,32,32 model=2,0,32,32", "model 2 water\nmodel 2 water\n"),
    (SEALED + entity(brush(CUBE, "*lava1"), brush(INSIDE)), "model=2,32,32,32 model=2,8,8,8", "model 2 solid\nmodel 2 lava\n"),
    # a box round two brushes, of which one is clip and one is flat, and in a wall alone no leaf is touched
    (SEALED + entity(brush(CUBE), brush((0, 0, 0, 999, 9, 9), "clip"), OPPOSED), "model=2", "model 2 box 0 0 0 64 64 64 leaves 0\n"),
    (SEALED + entity(brush((66, 0, 0, 70, 8, 8))), "model=2", "model 2 box 66 0 0 70 8 8 leaves\n"),
    # brushes of an entity without a name, and of two entities with one between them that has none
    (SEALED + b"{ " + brush(CUBE).encode() + b"}", "model=2", "model 2 box 0 0 0 64 64 64 leaves 0\n"),
    (SEALED + entity(brush(CUBE)) + entity(brush(CUBE, "clip"), APART) + entity(brush(INSIDE)), "model=4 model=2",
     "model 4 box 16 16 16 48 48 48 leaves 0\nmodel 2 box 0 0 0 64 64 64 leaves 0\n"),
]

# a world and an entity that has no model in it
WITHOUT = [
    (DOORED, 1), (DOORED, 0), (DOORED, 3), (TEXT, 1), (SEALED + entity(brush(CUBE, "Clip")), 2), (SEALED + entity(OPPOSED), 2),
    (SEALED + entity(), 2),
]

# what a section of models is not: cut short, with bytes behind it, and with a model that cannot stand in it
CUBE_MODEL = model(1, CUBE, [0, 5], cube_tree())
ODD = [
    b"", models(CUBE_MODEL)[:-1], models(CUBE_MODEL) + b"\0", models(count=1), models(CUBE_MODEL, count=0),
    models(model(0, CUBE, [], cube_tree())), models(CUBE_MODEL, CUBE_MODEL), models(model(1, (1, 0, 0, 0, 9, 9), [], cube_tree())),
    models(model(1, CUBE, [6], cube_tree())), models(model(1, CUBE, [2, 2], cube_tree())), models(model(1, CUBE, [3, 2], cube_tree())),
    models(model(1, CUBE, [], TREE)), models(model(1, CUBE, [], cube_tree(bound=4096))), models(model(1, CUBE, [], cube_tree(version=b"1"))),
    models(model(1, CUBE, [], cube_tree()[:-1])), models(model(1, CUBE, [], cube_tree() + b"\0")),
    models(model(1, CUBE, [], with_sections(cube_tree(), (7, b"")))),
]
GOOD = with_sections(TREE, (3, models(CUBE_MODEL)))
REFUSALS = [
    (TREE, "model=1", "1 refused: no part"),
    (TREE, "count model=1,0,0,0", "2 refused: no part"),
    (with_sections(TREE, (7, models(CUBE_MODEL))), "model=1", "1 refused: no part"),
    # that a place is outside goes before that there are no models, or bad ones, and this before that one is not there
    (TREE, "model=1,32768,0,0", "1 refused: outside the cube"),
    (with_sections(TREE, (3, b"abc")), "model=9,0,0,-32768", "1 refused: outside the cube"),
    (with_sections(TREE, (3, b"abc")), "model=9", "1 refused: bad part"),
    (with_sections(SMALL_TREE, (3, models(CUBE_MODEL))), "model=1", "1 refused: bad part"),
    (GOOD, "model=1 model=2", f"2 refused: {NO_MODEL}"),
    (GOOD, "model=1,0,0,0 model=999999999999999999,0,0,0", f"2 refused: {NO_MODEL}"),
    *((with_sections(TREE, (3, odd)), "parts model=1", "2 refused: bad part") for odd in ODD),
]


def has_the_door(data, plain):
    """Whether a file has what another one has, and the section of the door."""
    return data == with_sections(plain, (3, DOOR))


def has_both(data, plain):
    """Whether a file has the sections of another one, and the section of the door behind them."""
    return data == plain[:45] + struct.pack("<I", 3) + plain[49:] + struct.pack("<IQ", 3, len(DOOR)) + DOOR


def rows():
    for words in "map out --models", "--models map out", "map --models out --threads 1", "--fast map out --threads=64 --models":
        plain = words.replace("--models", "").replace("out", "plain").split()
        yield Row(f"compile {words}", 0, Lines("sealed\n"), {"map": DOORED}, {"out": Beside("plain", has_the_door)}, (["compile", *plain],))
    yield Row("compile map out --models --hulls", 0, Lines("sealed\n"), {"map": DOORED}, {"out": Beside("plain", has_both)},
              ("compile map plain --hulls",))
    for text, queries, answers in ASKED:
        yield Row(f"inspect out {queries}", 0, answers, {"map": text}, first=("compile map out --models",))
    for text, number in WITHOUT:
        yield Row(f"inspect out model={number}", 9, f"query 1 refused: {NO_MODEL}\n", {"map": text}, first=("compile map out --models",))
    # a map without models has the section too
    yield Row("compile map out --models", 0, Lines(""), {"map": TEXT}, {"out": with_sections(TREE, (3, models()))})
    yield Row("inspect out parts", 0, "version 2 bound 32768 parts 1 2 3\n", {"map": TEXT}, first=("compile map out --models --hulls",))
    yield Row("upgrade tree out", 0, "version 2 to 2\n", {"tree": GOOD}, {"out": GOOD})
    yield Row("inspect tree model=1 model=1,32,32,32 model=1,0,0,0", 0, "model 1 box 0 0 0 64 64 64 leaves 0 5\nmodel 1 solid\nmodel 1 solid\n",
              {"tree": GOOD})
    for tree, queries, text in REFUSALS:
        yield Row(f"inspect tree {queries}", 9, f"query {text}\n", {"tree": tree})
    # a level that leaks has no sections
    for text, number, trail, _ in LEAKS:
        yield Row("compile map out --models", 3, f"leak: entity {number}\ntrail: {trail}\n", {"map": text}, {"out": Beside("plain", is_same)},
                  ("compile map plain",))
