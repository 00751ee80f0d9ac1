"""MAP texts with a fault, and texts that are written in the fixed form."""

from pathlib import Path

from rows.table import Row
from rows.worlds import CUBE, ends_with, faces, summary

NO_NORMAL = "8 at line 3: no normal"
BAD_ORIGIN = "10 at line 1: bad origin"
LINE = "( 0 0 0 ) ( 1 1 1 ) ( 2 2 2 ) stone"

# texts that end too early, with the fault that both commands find
AT_THE_END = [
    (b"", "11 at line 1: no entity"),
    (b"// {\n\n", "11 at line 3: no entity"),
    (b"// {\r}", "11 at line 1: no entity"),
    (b"{", "4 at line 1: end inside"),
    (b"{ }\n{\n", "4 at line 3: end inside"),
    (b"{ {\n", "4 at line 2: end inside"),
    (b'{ "a"', "4 at line 1: end inside"),
    (b"{ {\n( 0 0 0 )", "4 at line 2: end inside"),
    (b"{ { ( 0 0 0 ) ( 1 1 1 ) ( 2 2 2", "4 at line 1: end inside"),
    (b'{ "a" "b\n', "2 at line 1: quote not closed"),
    (b'{ "a', "2 at line 1: quote not closed"),
    (b'{ }\n"a\nb', "2 at line 2: quote not closed"),
    (b'\n// "\n"a\nb', "2 at line 3: quote not closed"),
]

# texts with a token that may not stand where it does, and its line
UNEXPECTED = [
    (b"{ { x", 1),
    (b"{ { {", 1),
    (b"x", 1),
    (b"}", 1),
    (b'\n"a\nb"', 2),
    (b'} "a', 1),
    (b"{ x }", 1),
    (b'{ "a" b }', 1),
    (b'{ "a\n b"c // "\r\n-1.5 /"}', 2),
    (b'{ "a" }', 1),
    (b'{ {\n"a"', 2),
    (b'\n{ { ( "0" 0 0 )', 2),
    (b'{ { ( 0 0\n"0"', 2),
    (b"{ { ( 0 0\n)", 2),
    (b"{ { ( 0 0 0 }", 1),
    (b"{ { ( 0 0 0 0", 1),
    (b"{ { ( 0 0 0 ) ( 0 1 0 ) ( 0 0 1 ) {", 1),
    (b'{ { ( 0 0 0 ) ( 0 1 0 ) ( 0 0 1 ) a "0"', 1),
    (b"{ { ( 0 0 0 ) ( 0 1 0 ) ( 0 0 1 ) a 0 0 0 1 ]", 1),
    (b"{ { ( 0 0 0 ) ( 0 1 0 ) ( 0 0 1 ) a 0 0 0 1 1 1", 1),
    (b"{ { ( 0 0 0 ) ( 0 1 0 ) ( 0 0 1 ) a [ 1 0 0 ]", 1),
    (b"{ } }", 1),
    (b"{}", 1),
    (b"{ }//", 1),
    (b"{\n}/", 2),
]

# numbers, planes, brushes and origins that may not be, with the fault
MAY_NOT_BE = [
    (b"{ { ( 1e3", "5 at line 1: bad number"),
    (b"{ { (\n+ 0 0 )", "5 at line 2: bad number"),
    (b"{ { ( (0", "5 at line 1: bad number"),
    (b"{ { ( 1.0005", "6 at line 1: fraction"),
    (b"{ { ( 0.0005", "6 at line 1: fraction"),
    (b"{ { ( 32768.0001 0 0 )", "6 at line 1: fraction"),
    (b"{ { ( 99999.1234 0 0 )", "6 at line 1: fraction"),
    (b"{\n{\n(\n32769 0", "7 at line 4: coordinate out of range"),
    (b"{\n{\n(\n-32768.001 0", "7 at line 4: coordinate out of range"),
    (b"{ { ( 99999.5 0 0 )", "7 at line 1: coordinate out of range"),
    (b"{ { ( 0 32768.001 0 )", "7 at line 1: coordinate out of range"),
    (b"{ { ( 0 0 -32768.001 )", "7 at line 1: coordinate out of range"),
    (b"{ { ( -32769 0 0 )", "7 at line 1: coordinate out of range"),
    (b"{ { ( 99999999999999999999 0 0 )", "7 at line 1: coordinate out of range"),
    (b"{\n{\n" + LINE.encode(), NO_NORMAL),
    ("".join(("{\n{\n", LINE, " 0 0 0 1 1\n", *faces(CUBE)[1:], "}\n}\n")).encode(), NO_NORMAL),
    (b"// a room\n{\n{\n" + LINE.encode() + b" 0 0 0 1 1 } }", "8 at line 4: no normal"),
    (b"{ { ( 0 0 0 ) ( 1 1 1 ) ( 2 2 2\n) }", "8 at line 2: no normal"),
    (b"{ { ( 5 5 5 ) ( 5 5 5 ) ( 1 2 3 )", "8 at line 1: no normal"),
    (b"{ { ( 0 0 0 ) ( 0.5 0.5 0.5 ) ( 0.001 0.001 0.001 )", "8 at line 1: no normal"),
    (b"{ { } }", "9 at line 1: no faces"),
    (b"{ {\n}", "9 at line 2: no faces"),
    (b'{ { } "a', "9 at line 1: no faces"),
    (b'{ } { "origin" "1 2" }', BAD_ORIGIN),
    (b'{ } {\n"origin" "1 2" }', "10 at line 2: bad origin"),
    (b'{ } { "a" "b" "origin"\n"0,0,0" }', "10 at line 2: bad origin"),
    (b'{ } { "origin" "1 2 3 4" }', BAD_ORIGIN),
    (b'{ } { "origin" "" }', BAD_ORIGIN),
    (b'{ } { "origin" "32768 0 0" }', BAD_ORIGIN),
    (b'{ } { "origin" "0 -32768 0" }', BAD_ORIGIN),
    (b'{ } { "origin" "0 0 0.0000001" }', BAD_ORIGIN),
    (b'{ } { "origin" "1e3 0 0" }', BAD_ORIGIN),
    (b'{ } { "origin" "0 -1000000001 0" }', BAD_ORIGIN),
    (b'{ } { "origin" "0 0 x" "origin" "0 0 0" }', BAD_ORIGIN),
    (b'{ } { "origin" "0 0 0" } { "a" "b" "origin" "x" }', BAD_ORIGIN),
    (b'{ } { "origin" "a\nb" }', BAD_ORIGIN),
    (b"{ {\n( 4000 0.001 0 ) ( 0 0 0 ) ( 0 4000 0.001 ) stone", "12 at line 2: plane too fine"),
    (b"{\n{\n( 4000 0.001 0 ) ( 0 0 0 )\n( 0 4000 0.001 ) stone", "12 at line 4: plane too fine"),
    (b"{ { ( 0 4000 0.001\n) ( 0 0 0 ) ( 4000 0.001 0\n) }", "12 at line 3: plane too fine"),
    (b"{\n{\n\n( 10000 1 0 ) ( 0 0 0 ) ( 1 10000 1 ) stone", "12 at line 4: plane too fine"),
]

# a text may have 67,108,864 bytes; a token that is refused within them decides before a text that is too long. The bytes at the start, the
# byte that fills the text up to that length, those behind it, and the fault
LIMIT = 67_108_864
LONG = [
    (b"", b" ", b"", "11 at line 1: no entity"),
    (b"", b" ", b" ", "1 at line 1: text too long"),
    (b"", b" ", b"\n", "1 at line 1: text too long"),
    (b"}", b" ", b" ", "3 at line 1: unexpected"),
    (b"\n", b"}", b"\n", "3 at line 2: unexpected"),
    (b"\n", b"}", b"}", "1 at line 2: text too long"),
    (b'{ "', b"\n", b"", "2 at line 1: quote not closed"),
    (b'{ "', b"\n", b"a", "1 at line 67108862: text too long"),
]

# the name of a texture, and how it is written: between quotes only where it would not be read as one word
NAMES = [('"a b"', '"a b"'), ('""', '""'), ('"{"', '"{"'), ('"//x"', '"//x"'), ('"/x"', "/x"), ('a"b//c', 'a"b//c'), ("\u00e9*", "\u00e9*"),
         ('"plain"', "plain"), ("{fence", "{fence"), ("b\"c", "b\"c")]

# points, and how they are written
POINTS = [
    ("-0 +1 2.", "0 1 2"),
    ("+64 64. 64.000", "64 64 64"),
    ("-0 .0 00064", "0 0 64"),
    ("-0.5 .5 0.5000", "-0.5 0.5 0.5"),
    ("0.001 -.001 64.125", "0.001 -0.001 64.125"),
    ("-.001 0.010 100.1", "-0.001 0.01 100.1"),
    ("-64.125 64.120 -64.100", "-64.125 64.12 -64.1"),
    ("32768 -32768.000 0", "32768 -32768 0"),
    ("32768.000 -32767.999 -00.0", "32768 -32767.999 0"),
]

# a map in one line, with quotes and marks among its words and a comment, and how it is written
AMONG = '{ "a""b c" "" "" { ( -0 +1 2. ) ( 0 1 0 ) ( 0 0 1 ) "x y" b"c [d e//f 0 1 } } { } // x'
AMONG_WRITTEN = '{\n"a" "b c"\n"" ""\n{\n( 0 1 2 ) ( 0 1 0 ) ( 0 0 1 ) "x y" b"c [d e//f 0 1\n}\n}\n{\n}\n'
SLOPE = "{\n{\n( 4000 0.5 0 ) ( 0 0 0 ) ( 0 4000 0.5 ) slope 0 0 0 1 1\n}\n}\n"

ROOM = Path(__file__).parent.parent.parent.joinpath("samples/room.map").read_text()
KEY = '{\n"' + 1_000_000 * "k" + '" "v"\n}\n'


def face(points, name):
    return f"( {points} ) ( 0 1 0 ) ( 0 0 1 ) {name} 0 0 0 1 1"


def flat(number):
    """A brush of two faces that are turned against each other at a coordinate."""
    points = (f"( {number} 0 0 ) ( {number} 0 1 ) ( {number} 1 0 )", f"( {number} 0 0 ) ( {number} 1 0 ) ( {number} 0 1 )")
    return "".join(("{\n{\n", *(f"{three} stone 0 0 0 1 1\n" for three in points), "}\n}\n")).encode()


def formatted(text, entities, brushes, written):
    """A text that `format` writes so."""
    return Row("format map out", 0, f"entities {entities}\nbrushes {brushes}\n", {"map": text.encode()}, {"out": written.encode()})


def rows():
    unexpected = [(text, f"3 at line {line}: unexpected") for text, line in UNEXPECTED]
    for text, fault in (*AT_THE_END, *unexpected, *MAY_NOT_BE):
        for words in ("compile map out", "format map out"):
            yield Row(words, 4, f"map fault {fault}\n", {"map": text})
    for first, filling, last, fault in LONG:
        yield Row("compile map out", 4, f"map fault {fault}\n", {"map": first.ljust(LIMIT, filling) + last})
    # coordinates of the larger world, whole and with decimals
    for number in ("4097", "32768", "-32768", "0.5000", "64.", "+64"):
        yield Row("compile map out", 0, summary("no entity", 1, 1, 1, 0, 1, 1, 0, 0, 1), {"map": flat(number)}, {"out": ends_with(75, b"\1")})
    printed = "".join(line for line in ROOM.splitlines(True) if not line.startswith("//")).replace(".000 ", " ")
    for text in (ROOM, ROOM.replace("\n", "\r\n"), printed):
        yield formatted(text, 3, 7, printed)
    yield formatted(KEY, 1, 0, KEY)
    for name, written in NAMES:
        yield formatted(f"{{ {{ {face('-0 +1 2.', name)} }} }}", 1, 1, f"{{\n{{\n{face('0 1 2', written)}\n}}\n}}\n")
    for points, written in POINTS:
        yield formatted(f"{{ {{ {face(points, 'a')} }} }}", 1, 1, f"{{\n{{\n{face(written, 'a')}\n}}\n}}\n")
    yield formatted(AMONG, 2, 1, AMONG_WRITTEN)
    yield formatted(SLOPE, 1, 1, SLOPE)
