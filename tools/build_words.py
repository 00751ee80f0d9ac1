"""The words of `qmbuild`, and what each of them means."""

import argparse
import os
import re

DESCRIPTION = """Compiles a level as an editor saves it: the brushes of its layers and groups count as the world's. Says whether the
level is sealed, where it leaks, or what is wrong with its text."""


def words_of(words):
    """The words of a command line, or the usage line and status 2."""
    parser = argparse.ArgumentParser(prog="qmbuild", description=DESCRIPTION, allow_abbrev=False)
    parser.add_argument("level", metavar="LEVEL.map", help="the level, which is only read")
    parser.add_argument("--full", action="store_true", help="computes the full visibility, which can take minutes or hours; "
                        "without it coarse visibility, in seconds")
    parser.add_argument("--threads", metavar="N", type=threads, help="uses N threads, 1 to 64")
    parser.add_argument("--hulls", action="store_true", help="also writes the clip hulls into the tree")
    parser.add_argument("--models", action="store_true", help="also writes the brush models into the tree, such as doors and lifts")
    parser.add_argument("--faces", action="store_true", help="also writes the faces of the level into the tree")
    parser.add_argument("--bsp", action="store_true", help="also writes LEVEL.bsp, for engines; the tree has the clip hulls then")
    parser.add_argument("--wad", metavar="FILE", action="append", default=[], help="takes textures of the .bsp from a WAD2 file; "
                        "may be given again")
    parser.add_argument("--no-bevels", action="store_false", dest="bevels", help="adds no axial faces to the brushes of the .bsp")
    parser.add_argument("--q3", action="store_true", help="reads a map of the Quake 3 family, without its patches")
    parser.add_argument("--mend", action="store_true", help="compiles a copy in which refused faces get nearby points")
    parser.add_argument("--all", action="store_true", help="lists every face that is refused, and not the first fault alone")
    parser.add_argument("--out", metavar="FOLDER", help="writes the tree and the .bsp there; without it they stand beside the level")
    parser.add_argument("--name", metavar="NAME", type=plain_name, help="writes NAME.tree and so on in place of LEVEL.tree")
    parser.add_argument("--lin", action="store_true", help="also writes the leak line as LEVEL.lin, for NetRadiant")
    asked = parser.parse_args(words)
    if asked.wad and not asked.bsp:
        parser.error("--wad goes with --bsp")
    if "" in (asked.level, asked.out):
        parser.error("a name is empty")
    if asked.name is None:
        asked.name = re.sub(r"(?i)(?<=.)\.map$", "", os.path.basename(asked.level))
    return asked


def threads(word):
    """A number from 1 to 64, as the compiler takes it."""
    if not re.fullmatch("[1-9][0-9]?", word) or int(word) > 64:
        raise ValueError
    return int(word)


def plain_name(word):
    """A name without folders."""
    if not word or "/" in word:
        raise ValueError
    return word
