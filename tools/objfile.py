"""The faces of a level as a Wavefront OBJ, for programs that draw or edit such: a group for each texture, and a material of its name.

Places are those of the map, z up. Faces go round against the clock as seen from the level, which is how programs tell their front.
Corners are decimals: whole if they are, else to the nearest millionth."""

import corners
from points import PLACES, decimal

# what would end a name, or be read as a mark
ODD = b"%#\\"


def parts(name, pieces, brushes):
    """The parts of the text: pieces of the surface, as `sections` has them, of some brushes."""
    yield f"# the faces of {name}\n"
    groups, places = grouped(pieces, brushes), {}
    lines = [(texture, [face_line(piece.polygon[::-1], places) for piece in those]) for texture, those in groups.items()]
    for corner in places:
        yield f"v {' '.join(decimal(number, PLACES) for number in corners.point(corner))}\n"
    for texture, faces in lines:
        yield f"g {texture}\nusemtl {texture}\n"
        yield from faces


def grouped(pieces, brushes):
    """The pieces by their textures, in the order in which these come. Capitals count as small letters, as for engines: the first
    spelling counts."""
    names, found = {}, {}
    for piece in pieces:
        texture = brushes[piece.brush].faces[piece.face].texture
        found.setdefault(names.setdefault(texture.lower(), spelled(texture)), []).append(piece)
    return found


def spelled(texture):
    """A texture as the name of a group: bytes that such a name cannot have stand as % with two digits, as in addresses."""
    return "".join(chr(byte) if 32 < byte < 127 and byte not in ODD else f"%{byte:02X}" for byte in texture) or "%"


def face_line(polygon, places):
    """The line of a polygon; `places` has the number of each corner, from 0 on, and gets those that are new."""
    return f"f {' '.join(str(1 + places.setdefault(corner, len(places))) for corner in polygon)}\n"
