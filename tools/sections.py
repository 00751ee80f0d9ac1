"""The sections of a tree file that a level for engines takes: clip hulls, models of other entities, and faces. Each is there or
not."""

from typing import NamedTuple

from corners import reduced
import treefile


class BadSection(Exception):
    """Why a section is not what its kind says."""


class Piece(NamedTuple):
    """A piece of a face: the leaf in front of it, its brush among those of the world that are in the tree, the number of its face
    there, the number of its plane, and its polygon, which goes round with the clock as seen from the leaf."""
    leaf: int
    brush: int
    face: int
    plane: int
    polygon: list


def of_kind(tree, kind):
    """The section of a kind, or None."""
    return next((section for section in tree.sections if section.kind == kind), None)


def plain_tree(data, kind, bound):
    """The tree of bytes that stand in a section."""
    try:
        return treefile.plain(data, bound)
    except treefile.BadPart as fault:
        raise BadSection(f"section {kind} has {fault}") from None


def hull(tree, kind):
    """The tree of a clip hull, or None where the file has none."""
    section = of_kind(tree, kind)
    return section and plain_tree(section.data, kind, tree.bound)


def models(tree):
    """The trees of other entities, by the numbers of these; none where the file has none."""
    try:
        return {model.entity: model.tree for model in tree.models()}
    except treefile.NoPart:
        return {}
    except treefile.BadPart as fault:
        raise BadSection(f"section {treefile.MODELS} has {fault}") from None


def faces(tree):
    """The pieces of the faces between solid leaves and others, or None where the file has none."""
    try:
        found = tree.faces()
    except treefile.NoPart:
        return None
    except treefile.BadPart as fault:
        raise BadSection(f"section {treefile.FACES} has {fault}") from None
    if any(tree.leaves[piece.leaf].number is None for piece in found):
        raise BadSection(f"section {treefile.FACES} has a piece that faces something solid")
    kept = {numbers: corner(tree, numbers) for piece in found for numbers in piece.corners}
    return [Piece(piece.leaf, piece.brush, piece.face, piece.corners[0][0], [kept[numbers] for numbers in piece.corners]) for piece in found]


def corner(tree, numbers):
    """The corner in which the planes of three numbers meet."""
    *point, weight = treefile.meeting(*map(tree.named_plane, numbers))
    way = 1 if weight > 0 else -1
    return reduced(*(way * part for part in point), way * weight)
