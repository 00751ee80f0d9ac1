"""The words of the commands of `qmlook`, and what each of them means."""

from fractions import Fraction
import re

from treefile import BOUNDS, HULLS

# the options after which a place may stand
PLACED = ("--at", "--from", "--to", "--row", "--trace")


def words_of(parser, words):
    """The words of a command line, or the usage line and status 2."""
    commands = parser.add_subparsers(dest="command", metavar="COMMAND", required=True)
    plan_words = command(commands, "plan", "a slice through the tree at a height, as an SVG picture")
    plan_words.add_argument("--z", type=height, help="the height; without it that of a player's eyes at the start of a map, "
                            "or one at which there is much to see")
    plan_words.add_argument("--map", metavar="MAP", help="marks the entities of a map")
    plan_words.add_argument("--leak", metavar="TRAIL", type=trail, help='the numbers after `trail: `, as "8 6 0"')
    plan_words.add_argument("--row", metavar="N", type=number, help="shows the leaves that row N holds")
    plan_words.add_argument("--prt", metavar="FILE", help="shows the portals of a listing")
    plan_words.add_argument("--hull", metavar="H", type=number, choices=sorted(HULLS), help="shows what is solid in clip hull 1 or 2")
    plan_words.add_argument("--models", action="store_true", help="shows the brush models, such as doors, of a tree that has them; "
                            "with --row which of them it sees")
    plan_words.add_argument("--trace", metavar="X,Y,Z,U,V,W", type=segment, help="shows the leaves along the segment from one point to "
                            "another, or with --hull those of that hull")
    points_words = command(commands, "points", "the line of a leak, as a point file for editors")
    points_words.add_argument("--leak", metavar="TRAIL", type=trail, required=True, help='the numbers after `trail: `, as "8 6 0"')
    view_words = command(commands, "view", "a page in which you walk through the level, for a browser")
    view_words.add_argument("--at", metavar="X,Y,Z", type=place, help="where you begin")
    view_words.add_argument("--map", metavar="MAP", help="marks the entities of a map; without --at you begin at its player start; "
                            "if OUT has faces, walls have a colour for each texture")
    view_words.add_argument("--leak", metavar="TRAIL", type=trail, help="has the line of a leak")
    view_words.add_argument("--prt", metavar="FILE", help="has the portals of a listing")
    picture_words = command(commands, "picture", "a view from a place, as an SVG picture")
    picture_words.add_argument("--from", metavar="X,Y,Z", type=place, required=True, dest="eye", help="where you stand")
    picture_words.add_argument("--to", metavar="X,Y,Z", type=place, required=True, dest="aim", help="where you look")
    picture_words.add_argument("--row", metavar="X,Y,Z", type=place, nargs="?", const=True,
                               help="shows what the row of the leaf there holds; without a place, of your own leaf")
    picture_words.add_argument("--leak", metavar="TRAIL", type=trail, help="has the line of a leak")
    picture_words.add_argument("--map", metavar="MAP", help="if OUT has faces, walls have a colour for each texture, and lines where the "
                               "faces of brushes end")
    obj_words = command(commands, "obj", "the faces of a tree as a Wavefront OBJ, with a group for each texture")
    obj_words.add_argument("--map", metavar="MAP", required=True, help="the map from which the tree was made")
    obj_words.add_argument("--out", metavar="FILE", help="writes it to FILE")
    command(commands, "json", "planes, nodes, leaves and rows, for other programs")
    world_words = command(commands, "world", "a map with the brushes of its groups in the world", "MAP", "a map, as an editor writes it")
    world_words.add_argument("--out", metavar="FILE", help="writes it to FILE, for editors without `>`")
    command(commands, "faces", "the faces of a map whose points the compiler refuses, with points near by that it takes", "MAP",
            "a map, as an editor writes it")
    bevels_words = command(commands, "bevels", "a map with bevel faces on the brushes that stop a player", "MAP",
                           "a map, as an editor writes it")
    bevels_words.add_argument("--out", metavar="FILE", help="writes it to FILE, for editors without `>`")
    return parser.parse_args(words)


def command(commands, name, what, read="OUT", which="a tree file of `qmapc compile`"):
    """A command, which reads a file and takes its options in full alone."""
    words = commands.add_parser(name, help=what, description=f"Prints {what}.", allow_abbrev=False)
    words.add_argument("name", metavar=read, help=which)
    return words


def height(word):
    """A height inside the largest cube that a tree file can have."""
    try:
        value = Fraction(word)
    except ZeroDivisionError:
        raise ValueError from None
    if not -BOUNDS[-1] < value < BOUNDS[-1]:
        raise ValueError
    return value


def number(word):
    """A number from 0 on."""
    if not word.isdecimal():
        raise ValueError
    return int(word)


def place(words):
    """Three numbers parted by commas: a point strictly inside the largest cube."""
    numbers = tuple(height(word) for word in words.split(","))
    if len(numbers) != 3:
        raise ValueError
    return numbers


def segment(words):
    """Six numbers parted by commas: two points."""
    numbers = words.split(",")
    return place(",".join(numbers[:3])), place(",".join(numbers[3:]))


def joined(words):
    """The words of a command line, where a place that begins with a hyphen is joined to the option before it: by itself it
    would be taken for one."""
    found = []
    for word in words:
        if found and found[-1] in PLACED and re.match(r"-[\d.].*,", word):
            found[-1] += "=" + word
        else:
            found.append(word)
    return found


def trail(words):
    """The numbers of a trail, with or without the `trail: ` before them."""
    numbers = [number(word) for word in words.removeprefix("trail:").split()]
    if not numbers:
        raise ValueError
    return numbers
