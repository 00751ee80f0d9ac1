"""A font of capitals, digits and marks: each letter five rows of three dots, a digit to the base 8 for each row from the top."""

LETTERS = {
    "A": 0o25755, "B": 0o65656, "C": 0o34443, "D": 0o65556, "E": 0o74647, "F": 0o74644, "G": 0o34553, "H": 0o55755, "I": 0o72227,
    "J": 0o11152, "K": 0o55655, "L": 0o44447, "M": 0o57755, "N": 0o65555, "O": 0o25552, "P": 0o65644, "Q": 0o25563, "R": 0o65655,
    "S": 0o34216, "T": 0o72222, "U": 0o55557, "V": 0o55552, "W": 0o55775, "X": 0o55255, "Y": 0o55222, "Z": 0o71247,
    "0": 0o75557, "1": 0o26227, "2": 0o61247, "3": 0o61216, "4": 0o55711, "5": 0o74616, "6": 0o34757, "7": 0o71122, "8": 0o75757,
    "9": 0o75716, ".": 0o00002, ",": 0o00024, ":": 0o02020, ";": 0o02024, "-": 0o00700, "+": 0o02720, "=": 0o07070, "_": 0o00007,
    "/": 0o11244, "\\": 0o44211, "!": 0o22202, "?": 0o61202, "(": 0o12221, ")": 0o42224, "[": 0o64446, "]": 0o31113, "<": 0o12421,
    ">": 0o42124, "*": 0o52500, "'": 0o22000, '"': 0o55000, "#": 0o57575, "%": 0o51245, "&": 0o25257, "|": 0o22222,
}
SIDE, ROOM = 16, 8
PAPER, INK, BRONZE = 0, 13, 109


def dots(letter):
    """Where a letter has dots, in a room of eight by eight."""
    rows = LETTERS.get(letter.upper(), 0)
    for row in range(5):
        for column in range(3):
            if rows >> 3 * (4 - row) & 4 >> column:
                yield 2 * column + 1, row + 2
                yield 2 * column + 2, row + 2


def sheet():
    """The bytes of a picture of 128 by 128 that has all 256 letters, the second half of which are of another colour."""
    width = SIDE * ROOM
    found = bytearray([PAPER]) * (width * width)
    for code in range(SIDE * SIDE):
        for x, y in dots(chr(code % 128)):
            found[(code // SIDE * ROOM + y) * width + code % SIDE * ROOM + x] = BRONZE if code > 127 else INK
    return bytes(found)
