"""The textures of a level: from WAD files, or made from their names. A texture is a name of at most 15 letters, a width and a height,
and the picture in four sizes, a byte a texel: the number of a colour of the game's palette."""

from struct import pack, unpack_from
from zlib import crc32

HEADER, NAME, MOST_LETTERS, MIPTEX = 40, 16, 15, 0x44
# rows of 16 shades each of the palette that made textures take, and those of liquids
ROWS = (1, 2, 3, 4, 5, 6, 7, 8, 9, 10, 11, 12)
LIQUIDS = ((b"*lava", 14), (b"*slime", 3), (b"*", 13))
SKY_ROW, TRANSPARENT = 13, 0
# the letters after `+` that name the frames of a texture that moves
FRAMES = b"0123456789"
ALTERNATES = b"abcdefghij"


class NoWad(Exception):
    """Why a file is no WAD of textures."""


def wad(data):
    """The textures of a WAD, each by its name in small letters. Raises `NoWad`."""
    if data[:4] == b"WAD3":
        raise NoWad("it is a WAD3 of Half-Life, whose textures have palettes of their own")
    if data[:4] != b"WAD2" or len(data) < 12:
        raise NoWad("it does not begin with WAD2")
    count, place = unpack_from("<ii", data, 4)
    if count < 0 or place < 12 or place + 32 * count > len(data):
        raise NoWad("its list of entries does not lie in it")
    found = {}
    for at in range(place, place + 32 * count, 32):
        begin, length, _, kind, packed, name = unpack_from("<iiibbxx16s", data, at)
        name = name.split(b"\0")[0]
        if kind != MIPTEX or packed:
            continue
        if begin < 0 or length < HEADER or begin + length > len(data):
            raise NoWad(f"the entry {shown(name)} does not lie in it")
        found.setdefault(name.lower(), checked(data[begin:begin + length], name))
    return found


def checked(data, name):
    """The bytes of a texture, if they are one. Raises `NoWad`."""
    width, height, *places = unpack_from("<6I", data, NAME)
    sizes = [(width >> level) * (height >> level) for level in range(4)]
    if not width or not height or width % 16 or height % 16 or max(width, height) > 4096:
        raise NoWad(f"the texture {shown(name)} is {width} x {height}, which are no sixteens from 16 to 4096")
    if any(place < HEADER or place + size > len(data) for place, size in zip(places, sizes)):
        raise NoWad(f"the texture {shown(name)} ends too early")
    return picture(name, width, height, [data[place:place + size] for place, size in zip(places, sizes)])


def shown(name):
    """A name as it is printed."""
    return name.decode("ascii", "replace")


def picture(name, width, height, sizes):
    """The bytes of a texture."""
    places = [HEADER + sum(map(len, sizes[:level])) for level in range(4)]
    return pack("<16s6I", name[:MOST_LETTERS], width, height, *places) + b"".join(sizes)


def made(name):
    """A texture made from its name: a checker, a sky or a liquid."""
    lower = name.lower()
    if lower.startswith(b"sky"):
        return sized(name, 256, 128, sky)
    seed = crc32(lower)
    row = next((row for begin, row in LIQUIDS if lower.startswith(begin)), None)
    if row is not None:
        return sized(name, 64, 64, lambda x, y: 16 * row + 4 + (crc32(bytes((x // 8 ^ y // 8, (x + y) // 16 & 3))) + seed) % 4)
    row = 16 * ROWS[seed % len(ROWS)]
    dark, light = row + 5 + (seed >> 8) % 2, row + 9 + (seed >> 9) % 2
    return sized(name, 64, 64, lambda x, y: light if (x // 16 + y // 16) % 2 else dark)


def sky(x, y):
    """A texel of a sky: clouds that are seen through in the left half, and what is behind them in the right one."""
    if x >= 128:
        return 16 * SKY_ROW + 6 + (y // 16 + x // 16) % 2
    return 16 * SKY_ROW + 3 if (x // 16 * 5 + y // 16 * 3) % 7 == 0 else TRANSPARENT


def sized(name, width, height, texel):
    """The texture of a name, with its four sizes, of which each smaller one leaves out texels."""
    rows = [[texel(x, y) for x in range(width)] for y in range(height)]
    sizes = [bytes(number for row in rows[::1 << level] for number in row[::1 << level]) for level in range(4)]
    return picture(name, width, height, sizes)


class Textures:
    """The textures of a level, in the order in which they are asked for."""

    def __init__(self, wads):
        self.wads, self.numbers, self.found, self.taken = wads, {}, [], {}
        self.missing = 0

    def number(self, texture):
        """The number of a texture, by the name that the map has."""
        lower = texture.lower()
        if lower not in self.numbers:
            name = self.short(texture)
            self.numbers[lower] = self.add(name)
            self.complete(name)
        return self.numbers[lower]

    def add(self, name):
        """The number of a texture of this level's own name."""
        number = self.taken.get(name.lower())
        if number is None:
            number = self.taken[name.lower()] = len(self.found)
            stored = self.stored(name)
            self.missing += stored is None
            self.found.append(stored or made(name))
        return number

    def stored(self, name):
        """The texture of a name from the first file that has it, or None."""
        data = next((wad[name.lower()] for wad in self.wads if name.lower() in wad), None)
        return data and pack("<16s", name) + data[NAME:]

    def short(self, texture):
        """A name of at most 15 letters that no other texture has: that behind the last slash, with a number where it was cut."""
        name = texture.rpartition(b"/")[2].replace(b"\0", b"") or b"unnamed"
        if name[:1] == b"+" and name[1:2].lower() not in [bytes((letter,)) for letter in FRAMES + ALTERNATES]:
            name = b"_" + name[1:]
        name, count = name[:MOST_LETTERS], 0
        while name.lower() in self.taken:
            count += 1
            end = b"~%d" % count
            name = texture.rpartition(b"/")[2][:MOST_LETTERS - len(end)] + end
        return name

    def complete(self, name):
        """Adds the other frames of a texture that moves: those that a file has, and those before them, without which engines end."""
        if name[:1] != b"+":
            return
        for letters in (FRAMES, ALTERNATES):
            frames = [b"+%c%b" % (letter, name[2:]) for letter in letters]
            known = [at for at, frame in enumerate(frames) if frame.lower() in self.taken or self.stored(frame)]
            for frame in frames[:known[-1] + 1] if known else ():
                self.add(frame)

    def packed(self):
        """The bytes of all textures: how many there are, where each begins, and they themselves."""
        begin, places = 4 + 4 * len(self.found), []
        for data in self.found:
            places.append(begin)
            begin += len(data)
        return pack(f"<{1 + len(places)}i", len(places), *places) + b"".join(self.found)
