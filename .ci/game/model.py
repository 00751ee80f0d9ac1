"""The model of a player: a box with a head, as an MDL file of one frame."""

from struct import pack

SKIN = 16
# two boxes, each by its corners: where they stand around the player's origin
BOXES = [((-10, -12, -24), (10, 12, 12)), ((-6, -6, 14), (6, 6, 28))]
# the sides of a box by its eight corners, of which bit 0 is x, bit 1 is y and bit 2 is z; each goes round with the clock from outside
SIDES = [(0, 4, 6, 2), (1, 3, 7, 5), (0, 1, 5, 4), (2, 6, 7, 3), (0, 2, 3, 1), (4, 5, 7, 6)]
LOW, SIZE = (-32.0, -32.0, -32.0), (0.25, 0.25, 0.25)


def packed(point):
    """A corner in the bytes of a frame."""
    return pack("<4B", *(round((number - low) / size) for number, low, size in zip(point, LOW, SIZE)), 0)


def model(colour):
    """The bytes of the model, with a skin of one colour."""
    points = [tuple((low, high)[at >> axis & 1] for axis, (low, high) in enumerate(zip(*box))) for box in BOXES for at in range(8)]
    triangles = []
    for box in range(len(BOXES)):
        for a, b, c, d in SIDES:
            triangles += [[8 * box + at for at in (a, b, c)], [8 * box + at for at in (a, c, d)]]
    head = pack("<4si3f3ff3f8if", b"IDPO", 6, *SIZE, *LOW, 48.0, 0.0, 0.0, 22.0, 1, SKIN, SKIN, len(points), len(triangles), 1, 0, 0, 1.0)
    skin = pack("<i", 0) + bytes([colour]) * (SKIN * SKIN)
    texture = b"".join(pack("<3i", 0, point % 4 * 4, point // 4 % 4 * 4) for point in range(len(points)))
    sides = b"".join(pack("<4i", 1, *corners) for corners in triangles)
    lowest = packed([min(numbers) for numbers in zip(*points)])
    highest = packed([max(numbers) for numbers in zip(*points)])
    frame = pack("<i", 0) + lowest + highest + pack("<16s", b"stand") + b"".join(map(packed, points))
    return head + skin + texture + sides + frame
