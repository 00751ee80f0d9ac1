"""WAD2 files, and the pictures that stand in them."""

from struct import pack

PICTURE, PLAIN = 66, 68


def picture(width, height, colour):
    """A picture of one colour, as engines keep them."""
    return pack("<ii", width, height) + bytes([colour]) * (width * height)


def wad(lumps):
    """The bytes of a WAD2 file of some lumps: a name, a kind and bytes each."""
    data, entries = b"", b""
    for name, kind, body in lumps:
        entries += pack("<iiibbh16s", 12 + len(data), len(body), len(body), kind, 0, 0, name.encode())
        data += body + bytes(-len(body) % 4)
    return pack("<4sii", b"WAD2", len(lumps), 12 + len(data)) + data + entries
