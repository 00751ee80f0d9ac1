"""What each token of a map is there for, up to the first that may not stand where it stands."""

import re
from typing import NamedTuple

TOKEN = re.compile(rb'(?P<comment>//[^\n]*)|"(?P<quoted>[^"]*)"|(?P<unclosed>")|(?P<word>[^\x00-\x20]+)')
MARKS = (b"{", b"}", b"(", b")", b"[", b"]")
NUMBER, TEXTURE, MAPPING, WORD, POINTS_END = "number", "texture", "mapping", "word", "end of the points"
KEY, VALUE, BRUSH_END, EMPTY_BRUSH_END = "key", "value", "end of a brush", "end of a brush without faces"
OTHER, UNCLOSED, UNEXPECTED = "other", "quote not closed", "unexpected"
POINT = [b"(", NUMBER, NUMBER, NUMBER]
FACE = POINT + [b")"] + POINT + [b")"] + POINT + [POINTS_END, TEXTURE, MAPPING]
AXES = 2 * [b"[", WORD, WORD, WORD, WORD, b"]"] + 3 * [WORD]
PLAIN = 5 * [WORD]
BESIDE, IN_AN_ENTITY, IN_A_BRUSH = range(3)


class Part(NamedTuple):
    """A token, what it is there for, the number of its entity, and where it begins and ends."""
    kind: str
    word: bytes
    entity: int
    begin: int
    end: int


def parts(text):
    """The tokens of a text, up to the first that may not stand where it stands."""
    reader = Reader()
    for token in TOKEN.finditer(text):
        if token.lastgroup == "comment":
            continue
        word = token[token.lastgroup]
        kind = UNCLOSED if token.lastgroup == "unclosed" else reader.kind(word, token.lastgroup == "quoted")
        yield Part(kind, word, reader.entity, token.start(), token.end())
        if kind in (UNCLOSED, UNEXPECTED):
            return


class Reader:
    """What has to come next: the rest of a face, or what the depth allows."""

    def __init__(self):
        self.depth, self.entity, self.faces, self.is_value_due, self.wanted = BESIDE, -1, 0, False, []

    def kind(self, word, quoted):
        """What the next token is there for."""
        if self.wanted:
            return self.in_a_face(word, quoted)
        if self.is_value_due or self.depth == IN_AN_ENTITY and quoted:
            self.is_value_due = not self.is_value_due
            return (KEY if self.is_value_due else VALUE) if quoted else UNEXPECTED
        bracket = None if quoted else word
        if bracket == b"{" and self.depth < IN_A_BRUSH:
            self.depth += 1
            self.entity += self.depth == IN_AN_ENTITY
            self.faces = 0
            return OTHER
        if bracket == b"}" and self.depth > BESIDE:
            self.depth -= 1
            return OTHER if self.depth == BESIDE else BRUSH_END if self.faces else EMPTY_BRUSH_END
        if bracket == b"(" and self.depth == IN_A_BRUSH:
            self.faces += 1
            self.wanted = FACE[:0:-1]
            return OTHER
        return UNEXPECTED

    def in_a_face(self, word, quoted):
        """What the next token of a face is there for."""
        wanted = self.wanted.pop()
        if wanted == MAPPING:
            self.wanted = (AXES if word == b"[" and not quoted else PLAIN)[::-1]
            wanted = self.wanted.pop()
        if wanted == TEXTURE:
            fits = quoted or word not in MARKS
        elif wanted in (NUMBER, WORD):
            fits = not quoted and word not in MARKS
        else:
            fits = not quoted and word == (b")" if wanted == POINTS_END else wanted)
        return (wanted if isinstance(wanted, str) else OTHER) if fits else UNEXPECTED
