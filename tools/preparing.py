"""What is done to the text of a level before it is compiled."""

import bevels
from console import say
import groups
import maptext
import mending
import quake3


def readable(asked, text, progress):
    """The text without what other games write, and with faces mended, as far as that is asked for. Lines keep their numbers."""
    if asked.q3:
        with progress.doing("reading a map of the Quake 3 family"):
            found = quake3.plain(text)
        say(f"left out: the three numbers after the mapping of {found.faces} faces, and {found.patches} patches")
        text = found.text
    return mended(asked.level, text, progress) if asked.mend else text


def mended(name, text, progress):
    """The text with its faces mended."""
    try:
        with progress.doing("mending faces"):
            found = mending.mended(text)
    except maptext.NoMap:
        # the compiler says what is wrong
        return text
    say(*(mending.told(name, face) for face in found.faces), f"faces mended: {len(found.faces)}")
    return found.text


def whole(asked, text, progress):
    """The text with the brushes of layers and groups in the world. Bevels serve the hulls of a .bsp, and a tree alone has none; the tree
    and the .bsp are made of the same text. Raises `maptext.NoMap`."""
    with progress.doing("merging layers and groups"):
        text = b"".join(groups.moved(text).parts)
    if asked.bsp and asked.bevels:
        with progress.doing("adding bevels"):
            text = b"".join(bevels.bevelled(text).parts)
    return text
