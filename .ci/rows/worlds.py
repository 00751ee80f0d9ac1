"""MAP texts of worlds: boxes, rooms of boxes, and lights."""

# three points of each side of a box: to the west, east, south, north, bottom and top
SIDES = ("( {0} 0 0 ) ( {0} 1 0 ) ( {0} 0 1 )", "( {0} 0 0 ) ( {0} 0 1 ) ( {0} 1 0 )",
         "( 0 {0} 0 ) ( 0 {0} 1 ) ( 1 {0} 0 )", "( 0 {0} 0 ) ( 1 {0} 0 ) ( 0 {0} 1 )",
         "( 0 0 {0} ) ( 1 0 {0} ) ( 0 1 {0} )", "( 0 0 {0} ) ( 0 1 {0} ) ( 1 0 {0} )")

# a box of which many worlds are made, one inside it, one above it, one that ends at the cube's face, and one that fills the cube
CUBE = (0, 0, 0, 64, 64, 64)
INSIDE = (16, 16, 16, 48, 48, 48)
ABOVE = (0, 0, 64, 64, 64, 128)
WALL = (0, 0, 0, 32768, 64, 64)
ALL = (-32768, -32768, -32768, 32768, 32768, 32768)

# a room of six walls
ROOM = ((-80, -80, -16, 80, 80, 0), (-80, -80, 96, 80, 80, 112), (-80, -80, 0, 80, -64, 96),
        (-80, 64, 0, 80, 80, 96), (-80, -64, 0, -64, 64, 96), (64, -64, 0, 80, 64, 96))
# the room with a hole one unit wide in the wall to the east, and what closes the hole
HOLE_ROOM = (*ROOM[:5], (64, -64, 0, 80, 0, 96), (64, 1, 0, 80, 64, 96))
HOLE = (64, 0, 0, 80, 1, 96)
# a room whose two corners to the north are open to the outside, and meet the room in an edge alone
EDGE_ROOM = (*ROOM[:2], (-80, -80, 0, 80, -64, 96), (-80, -64, 0, -64, 64, 96), (64, -64, 0, 80, 64, 96), (-64, 64, 0, 64, 80, 96))
# three rooms round a corner
CORNER_ROOMS = ((-144, -80, -16, 112, 192, 0), (-144, -80, 96, 112, 192, 112), (-144, -80, 0, 112, -64, 96),
                (-144, -64, 0, -128, 192, 96), (96, -64, 0, 112, 192, 96), (-128, 64, 0, -16, 192, 96),
                (-16, 64, 0, 0, 192, 96), (0, 176, 0, 96, 192, 96), (0, 64, 64, 96, 80, 96),
                (-16, -64, 64, 0, 64, 96), (-16, -32, 0, 0, 64, 64), (32, 64, 0, 96, 80, 64))
# two rooms with a doorway, far in the west
TWO_ROOMS = ((-3600, -80, -16, -3360, 80, 0), (-3600, -80, 96, -3360, 80, 112), (-3600, -80, 0, -3360, -64, 96),
             (-3600, 64, 0, -3360, 80, 96), (-3600, -64, 0, -3584, 64, 96), (-3488, -32, 0, -3472, 64, 96),
             (-3488, -64, 64, -3472, -32, 96), (-3376, -64, 0, -3360, 64, 96))
# a box, and twenty in a row on each side of it
BOTH_SIDES = ((0, 0, 0, 16, 16, 16), *(box for near in range(64, 704, 32)
                                       for box in ((near, 0, 0, near + 16, 16, 16), (-near - 16, 0, 0, -near, 16, 16))))

# a flat brush of two faces that look away from each other, with nothing behind both
APART = ("{\n( 0 0 0 ) ( 0 1 0 ) ( 1 0 0 ) stone 0 0 0 1 1\n"
         "( 0 0 128 ) ( 1 0 128 ) ( 0 1 128 ) stone 0 0 0 1 1\n}\n")
# one of two faces that are turned against each other on one plane
OPPOSED = ("{\n( 0 0 0 ) ( 0 1 0 ) ( 0 0 1 ) stone 0 0 0 1 1\n"
           "( 0 0 1 ) ( 0 1 0 ) ( 0 0 0 ) stone 0 0 0 1 1\n}\n")


def faces(box, texture="stone"):
    """The lines of the faces of a box."""
    return [f"{side.format(at)} {texture} 0 0 0 1 1\n" for side, at in zip(SIDES, (at for pair in zip(box, box[3:]) for at in pair))]


def brush(box, texture="stone"):
    """A box."""
    return "{\n" + "".join(faces(box, texture)) + "}\n"


def world(*boxes, brushes="", texture="", first=(), origins=()):
    """A world of brushes that are given as text, boxes of a texture, and boxes of stone; and lights at some places, or nowhere."""
    text = '{\n"classname" "worldspawn"\n' + brushes
    text += "".join(brush(box, texture) for box in first) + "".join(brush(box) for box in boxes) + "}\n"
    for origin in origins:
        text += '{\n"classname" "light"\n' + (f'"origin" "{origin}"\n' if origin else "") + "}\n"
    return text.encode()


def summary(first, *counts):
    """The lines that sum a compiled level up."""
    names = "brushes flat planes nodes leaves numbered filled portals seen".split()
    assert len(counts) == len(names)
    return f"{first}\n" + "".join(f"{name} {count}\n" for name, count in zip(names, counts))


def ends_with(length, rows, follow=True):
    """A test of a tree file: its length, the rows at its end, and whether its byte 40 says that rows follow."""
    return lambda data: len(data) == length and data[40] == follow and data.endswith(bytes(rows))
