#!/usr/bin/env python3
"""Compares `PROGRAM format` with a plain slow reader of MAP texts, on texts that are nearly maps.

    .ci/compare_texts.py PROGRAM [READER]

Two maps are cut off at each byte, and each token of them is dropped, doubled, and exchanged with others. For each
text the program has to print the fault that the slow reader finds, or the numbers of entities and brushes; then OUT
has to have the same points, each coordinate without a zero that could be left out. Where READER is named, the program
`text_faults`, it reads all these texts in one run, whole, in pieces of 1, 2, 3 and 7 bytes and in pieces by chance,
and parts of the texts that `bench/make_map.py` makes, and has to find the same.
"""

import os
from pathlib import Path
import random
import re
import subprocess
import sys
import tempfile
from fractions import Fraction
from math import gcd

LIMIT = 67_108_864
# how far the world reaches on each axis
EXTENT = 32768
# how many decimals a coordinate may have, and the greatest component of a plane's normal in lowest terms
PLACES, GREATEST = 3, 2 ** 26
WORDS = [
    None, "text too long", "quote not closed", "unexpected", "end inside", "bad number", "fraction",
    "coordinate out of range", "no normal", "no faces", "bad origin", "no entity", "plane too fine",
]
# the same faults, as READER names them
NAMES = [
    None, "TextTooLong", "UnclosedQuote", "Unexpected", "EndInside", "BadNumber", "Fraction", "CoordinateRange",
    "NoNormal", "NoFaces", "BadOrigin", "NoEntity", "PlaneTooFine",
]
MARKS = [b"{", b"}", b"(", b")", b"[", b"]"]

STANDARD = b"""// a room
{
"classname" "worldspawn"
{
( -64 0 0 ) ( -64 1 0 ) ( -64 0 1 ) stone 0 0 0 1 1
( 64 +0 0. ) ( 64 0 .125 ) ( 64 1.500 -0 ) "two words" 0 8 90 1 -1 // a comment
( 4000 0.5 0 ) ( 0 0 0 ) ( 0 4000 0.5 ) slope 0 0 0 1 1
}
}
{ "origin" "1 -2.5 3" "a"
"b" }
"""
VALVE = b"""{ {
( 0 0 32768 ) ( 0 1 32768.0 ) ( 1 0 32768 ) {fence [ 0 -1 0 16 ] [ 0 0 -1 -8.5 ] 0 1 1
( 0 0 0 ) ( 1 0 0 ) ( 0 1 0 ) sky 0 0 0 1 1
} { ( 9 0 0 ) ( 9 1 0 ) ( 9 0 1 ) x//y [ 1 0 0 0 ] [ 0 1 0 0 ] 0 1 1 } }
{ "origin" "0 0 0" "origin" "x" }
"""
OTHERS = MARKS + [b"x", b'"q"', b"1.5", b"1e3", b"-0", b"0.001", b"0.0005", b"-32768.000", b"32768.001", b"-32768.0001",
                  b"99999999999", b'""', b"//", b'"']


class Token:
    def __init__(self, quoted, text, end, line):
        self.quoted, self.text, self.end, self.line = quoted, text, end, line

    def mark(self):
        return self.text if not self.quoted and self.text in MARKS else None


class Refused(Exception):
    def __init__(self, token, number):
        super().__init__()
        self.token, self.number = token, number


class AtEnd(Exception):
    pass


def lex(text):
    """The tokens, and the line of a quote that is not closed."""
    found, at = [], 0
    while True:
        gap = re.compile(rb"(?:[\x00-\x20]|//[^\n]*)*").match(text, at)
        at = gap.end()
        if at == len(text):
            return found, None
        line = 1 + text.count(b"\n", 0, at)
        if text[at:at + 1] == b'"':
            close = text.find(b'"', at + 1)
            if close < 0:
                return found, line
            found.append(Token(True, text[at + 1:close], close + 1, line))
            at = close + 1
        else:
            word = re.compile(rb"[^\x00-\x20]+").match(text, at)
            found.append(Token(False, word.group(), word.end(), line))
            at = word.end()


def read_number(word, places):
    """The value, or the name of its fault."""
    form = re.fullmatch(rb"([+-]?)([0-9]*)(?:\.([0-9]*))?", word)
    if not form or not (form.group(2) or form.group(3)):
        return "form"
    decimals = form.group(3) or b""
    if decimals[places:].strip(b"0"):
        return "fine"
    value = Fraction(int(form.group(2) + decimals or b"0"), 10 ** len(decimals))
    if value > 1_000_000_000:
        return "large"
    return -value if form.group(1) == b"-" else value


class Reader:
    def __init__(self, tokens):
        self.tokens, self.at = tokens, 0
        self.entities, self.brushes, self.points = 0, 0, []

    def next(self):
        if self.at == len(self.tokens):
            raise AtEnd
        self.at += 1
        return self.tokens[self.at - 1]

    def need(self, good):
        token = self.next()
        if not good(token):
            raise Refused(token, 3)
        return token

    def mark(self, mark):
        return self.need(lambda token: token.mark() == mark)

    def word(self):
        return self.need(lambda token: not token.quoted and not token.mark())

    def coordinate(self):
        token = self.word()
        value = read_number(token.text, PLACES)
        if value == "form":
            raise Refused(token, 5)
        if value == "fine":
            raise Refused(token, 6)
        if value == "large" or abs(value) > EXTENT:
            raise Refused(token, 7)
        return value

    def map(self):
        while self.at < len(self.tokens):
            self.mark(b"{")
            self.entity()
            self.entities += 1

    def entity(self):
        seen = False
        while True:
            token = self.need(lambda token: token.quoted or token.mark() in (b"{", b"}"))
            if token.quoted:
                value = self.need(lambda token: token.quoted)
                if token.text == b"origin" and not seen:
                    seen = True
                    if self.entities and not is_origin(value.text):
                        raise Refused(value, 10)
            elif token.text == b"{":
                self.brush()
            else:
                return

    def brush(self):
        faces = 0
        while True:
            token = self.need(lambda token: token.mark() in (b"(", b"}"))
            if token.text == b"}":
                if not faces:
                    raise Refused(token, 9)
                self.brushes += 1
                return
            self.face()
            faces += 1

    def face(self):
        points = []
        for count in range(3):
            if count:
                self.mark(b"(")
            points.append([self.coordinate() for _ in range(3)])
            close = self.mark(b")")
        self.points += points
        normal = normal_of(points)
        if not any(normal):
            raise Refused(close, 8)
        if greatest_component(normal, points[0]) > GREATEST:
            raise Refused(close, 12)
        self.need(lambda token: token.quoted or not token.mark())
        first = self.need(lambda token: token.mark() == b"[" or not token.quoted and not token.mark())
        if not first.mark():
            for _ in range(4):
                self.word()
            return
        for part in range(2):
            if part:
                self.mark(b"[")
            for _ in range(4):
                self.word()
            self.mark(b"]")
        for _ in range(3):
            self.word()


def normal_of(points):
    """A normal of the plane through three points, by its fractions."""
    a, b, c = points
    u = [a[k] - b[k] for k in range(3)]
    v = [c[k] - b[k] for k in range(3)]
    return [u[1] * v[2] - u[2] * v[1], u[2] * v[0] - u[0] * v[2], u[0] * v[1] - u[1] * v[0]]


def greatest_component(normal, point):
    """The greatest component of the normal in the plane's lowest terms: whole numbers without a common factor."""
    numbers = [Fraction(n) for n in normal + [sum(normal[k] * point[k] for k in range(3))]]
    under = 1
    for number in numbers:
        under = under * number.denominator // gcd(under, number.denominator)
    whole = [int(number * under) for number in numbers]
    return max(abs(n) for n in whole[:3]) // gcd(*whole)


def is_origin(value):
    words = [word for word in re.split(rb"[\x00-\x20]+", value) if word]
    numbers = [read_number(word, 6) for word in words]
    return len(words) == 3 and all(not isinstance(n, str) and abs(n) < EXTENT for n in numbers)


def meaning(text):
    """What the program has to print."""
    tokens, unclosed = lex(text)
    reader, faults = Reader(tokens), []
    last = 1 + text.count(b"\n")
    if len(text) > LIMIT:
        faults.append((LIMIT + 1, 0, 1, 1 + text.count(b"\n", 0, LIMIT)))
    if unclosed:
        faults.append((len(text), 3, 2, unclosed))
    try:
        reader.map()
        if not tokens and not unclosed:
            faults.append((len(text), 3, 11, last))
    except Refused as refused:
        order = 2 if refused.number == 3 else 1
        faults.append((refused.token.end, order, refused.number, refused.token.line))
    except AtEnd:
        if not unclosed:
            faults.append((len(text), 3, 4, last))
    if not faults:
        return f"entities {reader.entities}\nbrushes {reader.brushes}\n"
    _, _, number, line = min(faults)
    return f"map fault {number} at line {line}: {WORDS[number]}\n"


def points_of(text):
    """The points of all faces of a map's text, and the words that spell them."""
    tokens, _ = lex(text)
    reader = Reader(tokens)
    words = []
    coordinate = reader.coordinate

    def noted():
        words.append(reader.tokens[reader.at].text)
        return coordinate()

    reader.coordinate = noted
    reader.map()
    return reader.points, words


def is_canonical(word):
    return word != b"-0" and re.fullmatch(rb"-?(0|[1-9][0-9]*)(\.[0-9]*[1-9])?", word)


def is_same_map(text, out):
    """Whether OUT has the points of the text, as they are printed."""
    points, words = points_of(out)
    return points == points_of(text)[0] and all(is_canonical(word) for word in words)


def pieces(text):
    """The text cut into tokens and what stands between them."""
    return [piece for piece in re.findall(rb'"[^"]*"|//[^\n]*|[\x00-\x20]+|[^\x00-\x20]+', text) if piece]


def texts():
    for base in (STANDARD, VALVE):
        for end in range(len(base) + 1):
            yield base[:end]
        parts = pieces(base)
        for k, part in enumerate(parts):
            if part.isspace():
                continue
            yield b"".join(parts[:k] + parts[k + 1:])
            yield b"".join(parts[:k] + [part, b" ", part] + parts[k + 1:])
            for other in OTHERS:
                yield b"".join(parts[:k] + [other] + parts[k + 1:])


def parts_of_levels():
    """Parts of texts as level editors write them, cut out by chance."""
    chance = random.Random(34)
    maker = Path(__file__).resolve().parent.parent / "bench" / "make_map.py"
    for words in ("standard",), ("valve", "crlf"), ("mixed",), ("eighths", "crlf"):
        made = subprocess.run([sys.executable, maker, "1", *words], capture_output=True, check=True).stdout
        for number in range(20):
            begin = made.index(b"// brush", chance.randrange(len(made) // 3))
            end = begin + chance.randrange(8000)
            # as it is, or behind a brush, with the end of its entity
            yield b"{\n" + (made[begin:end] if number % 2 else made[begin:made.index(b"}", end) + 1] + b" }")


def line(text):
    """What READER has to print."""
    due = meaning(text)
    fault = re.match(r"map fault (\d+) at line (\d+)", due)
    if fault:
        return f"{NAMES[int(fault.group(1))]} {{ line: {fault.group(2)} }}"
    return ", ".join(due.splitlines())


def misread(reader, folder):
    """How many texts the reader finds something else in than the slow reader, and how many there are."""
    given = [*texts(), *parts_of_levels()]
    with open(os.path.join(folder, "texts"), "wb") as file:
        file.write(b"\0".join(given))
    ran = subprocess.run([reader, "texts"], cwd=folder, capture_output=True, check=True)
    said = ran.stdout.decode().splitlines()
    wrong = abs(len(said) - len(given))
    for text, words in zip(given, said):
        if words != line(text):
            wrong += 1
            print(f"{text!r}: the reader says {words}, and it means {line(text)}")
    return wrong, len(given)


def main():
    program = os.path.abspath(sys.argv[1])
    count, wrong = 0, 0
    with tempfile.TemporaryDirectory() as folder:
        if len(sys.argv) > 2:
            wrong, given = misread(os.path.abspath(sys.argv[2]), folder)
            print(f"{given} texts in pieces, {wrong} wrong")
        for text in texts():
            with open(os.path.join(folder, "a.map"), "wb") as file:
                file.write(text)
            ran = subprocess.run([program, "format", "a.map", "b.map"], cwd=folder, capture_output=True, check=False)
            count += 1
            due = meaning(text)
            if ran.stdout.decode() != due:
                wrong += 1
                print(f"{text!r}: printed {ran.stdout!r}, and it means {due!r}")
            elif due.startswith("entities"):
                with open(os.path.join(folder, "b.map"), "rb") as file:
                    out = file.read()
                if not is_same_map(text, out):
                    wrong += 1
                    print(f"{text!r}: OUT is {out!r}")
    print(f"{count} texts, {wrong} wrong")
    sys.exit(1 if wrong else 0)


if __name__ == "__main__":
    main()
