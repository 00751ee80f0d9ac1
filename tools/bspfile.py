"""The parts of a BSP file, in either form: BSP29, or BSP2 with larger numbers."""

from math import sqrt
from struct import Struct, pack

# the most that numbers of two bytes count: with a sign, as engines read them, and without
MOST_SIGNED, MOST = 32767, 65535
# names of the parts, in the order of the file
PARTS = ("entities", "planes", "textures", "vertices", "visibility", "nodes", "texinfo", "faces", "lighting", "clip nodes", "leaves",
         "marks", "edges", "surfedges", "models")
# how records are written in both forms
FORMS = {
    "nodes": ("<i2h6h2H", "<i2i6f2I"), "faces": ("<HhihhBBBBi", "<iiiiiBBBBi"), "clip nodes": ("<i2h", "<i2i"),
    "leaves": ("<ii6h2H4B", "<ii6f2I4B"), "marks": ("<H", "<I"), "edges": ("<2H", "<2I"),
    "planes": ("<4fi",) * 2, "vertices": ("<3f",) * 2, "texinfo": ("<8fii",) * 2, "surfedges": ("<i",) * 2, "models": ("<9f7i",) * 2,
}
LIMITS = {"nodes": MOST_SIGNED, "leaves": MOST_SIGNED, "clip nodes": MOST_SIGNED, "planes": MOST_SIGNED, "texinfo": MOST_SIGNED,
          "faces": MOST, "marks": MOST, "vertices": MOST}


class File:
    """What a BSP file has: bytes of some parts, and the records of others, each a tuple of numbers."""

    def __init__(self):
        self.records = {part: [] for part in PARTS if part in FORMS}
        self.bytes = {part: b"" for part in PARTS if part not in FORMS}
        self.planes, self.vertices, self.texinfos, self.shared = {}, {}, {}, {}
        # edge 0 is never used, since it would have no sign
        self.records["edges"].append((0, 0))

    def plane(self, plane):
        """The number of a plane in whole numbers."""
        if plane not in self.planes:
            length = sqrt(sum(part * part for part in plane[:3]))
            normal = [part / length for part in plane[:3]]
            most = max(range(3), key=lambda axis: abs(normal[axis]))
            kind = most if plane[:3].count(0) == 2 else 3 + most
            self.planes[plane] = self.add("planes", (*normal, plane[3] / length, kind))
        return self.planes[plane]

    def vertex(self, corner):
        """The number of a corner."""
        if corner not in self.vertices:
            x, y, z, w = corner
            self.vertices[corner] = self.add("vertices", (x / w, y / w, z / w))
        return self.vertices[corner]

    def texinfo(self, record):
        """The number of a record on how a texture lies."""
        if record not in self.texinfos:
            self.texinfos[record] = self.add("texinfo", record)
        return self.texinfos[record]

    def edge(self, first, second):
        """The number of the edge between two vertices, below 0 where it goes the other way. An edge has two uses, one each way."""
        number = self.shared.pop((second, first), None)
        if number is not None:
            return -number
        number = self.add("edges", (first, second))
        self.shared[first, second] = number
        return number

    def polygon(self, polygon):
        """Where the edges of a polygon begin, and how many there are."""
        first, numbers = len(self.records["surfedges"]), [self.vertex(corner) for corner in polygon]
        for at, number in enumerate(numbers):
            self.add("surfedges", (self.edge(number, numbers[(at + 1) % len(numbers)]),))
        return first, len(numbers)

    def add(self, part, record):
        """Adds a record to a part, and answers its number."""
        self.records[part].append(record)
        return len(self.records[part]) - 1

    def excess(self):
        """The first part that has more records than numbers of two bytes count, with how many it has, or None."""
        return next(((part, len(self.records[part]), most) for part, most in LIMITS.items() if len(self.records[part]) > most), None)

    def packed(self, is_large):
        """The bytes of the file."""
        parts = [self.part(part, is_large) for part in PARTS]
        begin, places = 4 + 8 * len(PARTS), []
        for data in parts:
            places += [begin, len(data)]
            begin += len(data) + -len(data) % 4
        head = (b"BSP2" if is_large else pack("<i", 29)) + pack(f"<{len(places)}i", *places)
        return head + b"".join(data + bytes(-len(data) % 4) for data in parts)

    def part(self, part, is_large):
        """The bytes of a part."""
        if part not in FORMS:
            return self.bytes[part]
        form = Struct(FORMS[part][is_large])
        return b"".join(form.pack(*record) for record in self.records[part])
