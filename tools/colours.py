"""How surfaces look, in the page and in a picture: each by what it bounds, and darker or lighter by where it faces."""

from colorsys import hls_to_rgb
from math import hypot
from zlib import crc32

# of each kind its colour, and how much of it is seen: water, slime and lava are seen through
KINDS = {
    "wall": ((186, 174, 156), 1.0),
    "water": ((58, 122, 196), 0.55),
    "slime": ((104, 150, 44), 0.7),
    "lava": ((224, 96, 26), 0.8),
    "sky": ((150, 198, 238), 1.0),
    "model": ((190, 122, 74), 1.0),
}
# what a row leaves out, where what it holds leaves room
UNSEEN = (226, 225, 222)
# what lies behind all
GROUND = (52, 50, 48)
# how bright a surface is that faces neither way of any axis, and how much more for facing along each
MEAN, EAST, NORTH, UP = 0.74, 0.12, 0.07, 0.18
# spreads the hues of textures
SPREAD = 0.6180339887


def kind(own, beyond):
    """As what a surface is drawn that is seen from some contents and has others beyond, or None where it is not drawn: sky
    ends nothing for one who stands in it."""
    if beyond == "solid":
        return "wall"
    if own == "sky":
        return None
    return own if beyond == "empty" else beyond


def kind_of_model(own, beyond):
    """The same of a brush model: what is solid of it has a colour of its own."""
    return "model" if beyond == "solid" else kind(own, beyond)


def shade(plane):
    """How bright a surface is, by its plane, which is turned to where it is seen from."""
    nx, ny, nz = plane[:3]
    return MEAN + (EAST * nx + NORTH * ny + UP * nz) / hypot(nx, ny, nz)


def unseen(plane):
    """The colour of a surface that a row leaves out: grey, with half of what makes others darker or lighter."""
    return tuple(round(part * (1 + shade(plane)) / 2) for part in UNSEEN)


def of_texture(texture):
    """The colour of a texture, by its name, in which capitals count as small letters."""
    seed = crc32(texture.lower().encode())
    hue, light, strength = seed * SPREAD % 1, 0.56 + (seed >> 9) % 16 / 100, 0.2 + (seed >> 13) % 16 / 100
    return tuple(round(255 * part) for part in hls_to_rgb(hue, light, strength))


def colour(name, plane, texture=None):
    """The red, green and blue of a surface, from 0 to 255; that of a texture, if there is one. Sky is as bright everywhere."""
    bright = 1 if name == "sky" else shade(plane)
    return tuple(min(255, round(part * bright)) for part in (of_texture(texture) if texture else KINDS[name][0]))


def hexadecimal(colour):
    """A colour as six digits."""
    return "".join(f"{part:02x}" for part in colour)
