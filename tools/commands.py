"""The commands of `qmlook`: what each prints, and what is said where it cannot be done."""

import argparse
from base64 import b64encode
import json
import os
import sys

from bevels import bevelled
from bodies import largest
from cells import Cells, NoContact
from eyes import Eye
import faces
import groups
import listing
import maptext
import objfile
import origins
import page
import picture
import pieces
import plan
from points import leak_line, printed
import sections
import slices
import surfaces
import treefile
from words import joined, words_of


# the clip hull of players
PLAYERS = 1


class Refused(Exception):
    """Why a command cannot be done, in a line."""


def plan_of(words):
    """The picture that the words ask for, in one part."""
    tree = tree_of(words.name)
    own = None if words.row is None else leaf_of_row(words, tree)
    portals = None if words.prt is None else portals_of(words.prt, tree)
    line = leak_line(Cells(tree), words.leak) if words.leak else None
    entities = [] if words.map is None else entities_of(words.map)
    marks = None if words.map is None else origins.marks(entities)
    models = models_of(words.name, tree) if words.models else None
    hull = None if words.hull is None else hull_of(words.name, tree, words.hull)
    ends = [inside(words, tree, end) for end in words.trace or ()]
    z = height_of(words, tree, line, own, marks) if words.z is None else inside(words, tree, (words.z,))[0]
    found = slices.pieces(tree, z)
    drawn = plan.Picture(tree, z, found, plan.View(slices.extent(tree, found)))
    if hull is not None:
        drawn.block(words.hull, hull)
    if models is not None:
        drawn.place_models(models, entities, words.row)
    if own is not None:
        drawn.hold(words.row)
    if portals is not None:
        drawn.join(portals)
    if marks is not None:
        drawn.mark(marks)
    if line:
        drawn.follow(line)
    if ends:
        drawn.trace(tree if hull is None else hull, *ends)
    return [plan.drawn(drawn, plain_name(words.name))]


def height_of(words, tree, line, own, marks):
    """The height of a slice where none is asked for: that at which a leak line comes into its last leaf, which touches the
    outside; else that at which a segment begins; else that of the middle of the row's own leaf; else that of the eyes at the start of
    a map, or of the start itself where a clip hull is shown; else one at which there is much to see."""
    if line and len(line) > 2:
        return line[-3][2]
    if words.trace:
        return words.trace[0][2]
    if own is not None:
        return Cells(tree).middle(own)[2]
    if marks is None:
        return slices.usual_height(tree)
    start, eyes = start_of(words.map, marks, tree)
    return eyes[2] if words.hull is None else start.place[2]


def leaf_of_row(words, tree):
    """The leaf whose row is asked for."""
    if tree.rows is None:
        raise Refused(f"{words.name} has no rows")
    if words.row >= len(tree.rows):
        raise Refused(f"{words.name} has no row {words.row}: its rows are numbered from 0 to {len(tree.rows) - 1}")
    return next(leaf for leaf, what in enumerate(tree.leaves) if what.number == words.row)


def points_of(words):
    """The point file that the words ask for, in one part."""
    return [printed(Cells(tree_of(words.name)), words.leak)]


def view_of(words):
    """The page that the words ask for, part by part."""
    tree = tree_of(words.name)
    portals = None if words.prt is None else page.portals_of(portals_of(words.prt, tree))
    line = leak_line(Cells(tree), words.leak) if words.leak else None
    entities = [] if words.map is None else entities_of(words.map)
    marks = None if words.map is None else origins.marks(entities)
    at, to = begin_of(words, tree, line, marks)
    seen = seen_of(words, tree)
    if not seen:
        raise Refused(f"{words.name} has nothing but solid leaves")
    at = at or Cells(tree).middle(largest({leaf: what.faces for leaf, what in seen.items()}))
    hull = page.hull_of(hull_of(words.name, tree, PLAYERS)) if any(section.kind == PLAYERS for section in tree.sections) else None
    models = models_of(words.name, tree) if any(section.kind == treefile.MODELS for section in tree.sections) else None
    shapes = list(map(page.shape_of, models or []))
    level = {**page.level_of(tree, seen, shapes), "hull": hull, "portals": portals, "leak": line and page.places(line),
             "models": models and page.models_of(models, shapes, entities), "entities": page.entities_of(marks or []),
             "at": page.places([at])[0], "to": to and page.places([to])[0]}
    return page.page(plain_name(words.name), level)


def begin_of(words, tree, line, marks):
    """Where a page begins and where you look, each None if nothing asked for says so: at the place that is asked for; else at
    the start of the map; else at the beginning of the leak line."""
    if words.at:
        return inside(words, tree, words.at), None
    if marks is not None:
        mark, eyes = start_of(words.map, marks, tree)
        return eyes, None if mark.angle is None else page.ahead(eyes, mark.angle)
    return line[:2] if line else (None, None)


def entities_of(name):
    """The entities of a map."""
    try:
        return origins.load(name)
    except maptext.NoMap as fault:
        raise Refused(f"{name} is no map: {fault}") from None


def start_of(name, marks, tree):
    """The entity of a map at which a look around begins, and the place of the eyes there."""
    found = origins.start(marks, lambda place: is_inside(tree, place) and tree.leaves[tree.leaf_at(place)].number is not None)
    if found is None:
        raise Refused(f"{name} has no entity that stands in the open")
    return found


def picture_of(words):
    """The view that the words ask for, in one part."""
    tree = tree_of(words.name)
    eye, aim = inside(words, tree, words.eye), inside(words, tree, words.aim)
    if eye == aim:
        raise Refused("the place from which one looks is the one to which one looks")
    looking, row, mark = Eye(eye, aim), None, None
    line = leak_line(Cells(tree), words.leak) if words.leak else None
    seen = seen_of(words, tree, picture.frame(looking))
    shown, left_out = {leaf: what.surfaces for leaf, what in seen.items()}, {}
    if words.row:
        mark = None if words.row is True else inside(words, tree, words.row)
        own = leaf_with_row(words, tree, mark or eye)
        row = tree.leaves[own].number, plan.counted(tree, tree.leaves[own].number)
        held = surfaces.held(tree, surfaces.seen_beside(tree, own), own)
        left_out = {leaf: those for leaf, those in shown.items() if leaf not in held}
        shown = {leaf: those for leaf, those in shown.items() if leaf in held}
    drawn = picture.Picture(tree, looking, shown, line, words.leak, left_out)
    drawn.mark = mark
    return [picture.drawn(drawn, picture.titled(plain_name(words.name), eye, aim, row))]


def seen_of(words, tree, planes=()):
    """What is seen of each leaf that has points in front of some planes, by the faces of the tree file if it has any, and with the textures
    of the map if one is named."""
    found = pieces_of(words.name, tree)
    if found is None:
        return surfaces.seen(tree, planes)
    brushes = None if words.map is None else brushes_of(words.map, tree, found)
    if words.map is not None and brushes is None:
        print(f"qmlook: {words.name} was not made from {words.map}: walls have no textures", file=sys.stderr)
    return pieces.seen(tree, found, brushes, planes)


def pieces_of(name, tree):
    """The pieces of the surface that a tree file has, or None."""
    try:
        return sections.faces(tree)
    except sections.BadSection as fault:
        raise Refused(f"{name}: {fault}") from None


def brushes_of(name, tree, found):
    """The brushes of a map to which pieces belong, or None if these are of another map."""
    try:
        return pieces.brushes_of(tree, found, maptext.load(name))
    except maptext.NoMap as fault:
        raise Refused(f"{name} is no map: {fault}") from None


def obj_of(words):
    """Writes the faces that the words ask for as a Wavefront OBJ."""
    tree = tree_of(words.name)
    found = pieces_of(words.name, tree)
    if found is None:
        raise Refused(f"{words.name} has no faces: `qmapc compile --faces` writes them, but not of a level that leaks")
    brushes = brushes_of(words.map, tree, found)
    if brushes is None:
        raise Refused(f"{words.name} was not made from {words.map}: its faces are of other brushes")
    write(objfile.parts(plain_name(words.name), found, brushes), words.out)


def is_inside(tree, place):
    """Whether a place is strictly inside the tree's cube."""
    return max(map(abs, place)) < tree.bound


def inside(words, tree, place):
    """A place, or a height by itself, that is strictly inside the tree's cube; or None, where none is given."""
    if place and not is_inside(tree, place):
        raise Refused(f"{picture.written(place)} is outside the cube of {words.name}, which ends at {tree.bound}")
    return place


def leaf_with_row(words, tree, where):
    """The leaf at a place, which has a row."""
    if tree.rows is None:
        raise Refused(f"{words.name} has no rows")
    leaf = tree.leaf_at(where)
    if tree.leaves[leaf].number is None:
        raise Refused(f"{picture.written(where)} is in leaf {leaf}, which is solid and has no row")
    return leaf


def json_of(words):
    """The whole file as an object of JSON, row by row, since rows are long."""
    tree = tree_of(words.name)
    yield f'{{"version": {tree.version}, "bound": {tree.bound},\n'
    yield f'"sections": {json.dumps([section_of(section) for section in tree.sections])},\n'
    yield f'"planes": {json.dumps(tree.planes)},\n'
    yield f'"nodes": {json.dumps([node._asdict() for node in tree.nodes])},\n'
    yield f'"leaves": {json.dumps([leaf._asdict() for leaf in tree.leaves])},\n'
    if tree.rows is None:
        yield '"rows": null}\n'
        return
    yield '"rows": ['
    for own in range(len(tree.rows)):
        yield f"{',' if own else ''}\n{json.dumps(tree.row(own))}"
    yield "]}\n"


def section_of(section):
    """A section as an object of JSON, with its bytes in base64."""
    return {"kind": section.kind, "bytes": b64encode(section.data).decode()}


def world_of(words):
    """Writes the map that the words ask for, and then says how many brushes were moved."""
    try:
        found = groups.moved(maptext.load(words.name))
    except maptext.NoMap as fault:
        raise Refused(f"{words.name} is no map: {fault}") from None
    write(found.parts, words.out)
    brushes, entities = counted(found.brushes, "brush", "brushes"), counted(found.entities, "entity", "entities")
    print(f"qmlook: moved {brushes} of {entities} into the world", file=sys.stderr)


def counted(number, one, many):
    """A number with the word for what it counts."""
    return f"{number} {one if number == 1 else many}"


def bevels_of(words):
    """Writes the map with bevel faces, and then says how many these are."""
    try:
        found = bevelled(maptext.load(words.name))
    except maptext.NoMap as fault:
        raise Refused(f"{words.name} is no map: {fault}") from None
    write(found.parts, words.out)
    faces, brushes = counted(found.faces, "bevel face", "bevel faces"), counted(found.brushes, "brush", "brushes")
    print(f"qmlook: added {faces} to {brushes}", file=sys.stderr)


def faces_of(words):
    """Writes a line for each face of a map whose points the compiler refuses, and then says how many these are."""
    try:
        text = maptext.load(words.name)
        found = list(faces.faces(text))
    except maptext.NoMap as fault:
        raise Refused(f"{words.name} is no map: {fault}") from None
    wrong = list(filter(None, map(faces.refused, found)))
    write(faces.told(text, what) for what in wrong)
    print(f"qmlook: faces that are refused: {len(wrong)} of {len(found)}", file=sys.stderr)


def plain_name(name):
    """The name of a file without its folders, in ASCII."""
    return "".join(letter if " " <= letter <= "~" else "?" for letter in os.path.basename(name))


def tree_of(name):
    """The tree of a file."""
    try:
        return treefile.load(name)
    except treefile.Fault as fault:
        raise Refused(f"{name} is no tree file: {fault}") from None


def hull_of(name, tree, which):
    """The tree of a clip hull that a tree file has."""
    try:
        return tree.hull(which)
    except treefile.NoPart:
        raise Refused(f"{name} has no clip hull {which}: `qmapc compile --hulls` writes it, but not of a level that leaks") from None
    except treefile.BadPart as fault:
        raise Refused(f"section {which} of {name} is no clip hull: {fault}") from None


def models_of(name, tree):
    """The brush models that a tree file has."""
    try:
        return tree.models()
    except treefile.NoPart:
        raise Refused(f"{name} has no brush models: `qmapc compile --models` writes them, but not of a level that leaks") from None
    except treefile.BadPart as fault:
        raise Refused(f"section {treefile.MODELS} of {name} has {fault}") from None


def portals_of(name, tree):
    """The portals of a listing of this tree."""
    try:
        leaves, portals = listing.load(name)
    except listing.NoListing as fault:
        raise Refused(f"{name} is no listing of portals: {fault}") from None
    numbered = sum(leaf.number is not None for leaf in tree.leaves)
    if leaves != numbered:
        raise Refused(f"{name} is a listing of another tree: it has {leaves} leaves, and the tree {numbered}")
    return portals


def write(parts, name=None):
    """Writes parts to a file, or to standard output."""
    try:
        with open(1 if name is None else name, "wb", closefd=name is not None) as out:
            out.writelines(part if isinstance(part, bytes) else part.encode() for part in parts)
    except OSError as fault:
        if not isinstance(fault.filename, str):
            fault.filename = name
        raise


def run(words):
    """Does what the words ask for, and answers the exit status: 0, or 1 where it cannot be done. A command gives the parts of what
    is printed, or has written what it makes."""
    parser = argparse.ArgumentParser(prog="qmlook", description="Looks at a compiled map, or readies one.", allow_abbrev=False)
    given = words_of(parser, joined(words))
    does = {"plan": plan_of, "points": points_of, "view": view_of, "picture": picture_of, "json": json_of, "obj": obj_of,
            "world": world_of, "faces": faces_of, "bevels": bevels_of}
    try:
        parts = does[given.command](given)
        if parts is not None:
            write(parts)
    except (Refused, NoContact) as refused:
        print(f"qmlook: {refused}", file=sys.stderr)
        return 1
    except OSError as fault:
        name = "standard output" if fault.filename is None else fault.filename
        print(f"qmlook: {name}: {fault.strerror}", file=sys.stderr)
        return 1
    return 0
