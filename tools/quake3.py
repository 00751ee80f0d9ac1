"""Takes out of a map what the Quake 3 family writes and the compiler does not read: the three numbers after the mapping of a face,
and patches. Each byte that goes becomes a blank, so all else keeps its line and its place in it."""

from typing import NamedTuple

from faces import FORM, SPELLED
from grammar import AXES, PLAIN, TOKEN

EXTRA = 3


class Plain(NamedTuple):
    """A text without these, of how many faces the numbers went, and how many patches."""
    text: bytes
    faces: int
    patches: int


def plain(text):
    """The text without the numbers and the patches."""
    blanked, faces, patches = bytearray(text), 0, 0
    for tokens in brushes(text):
        if is_patch(tokens):
            blank(blanked, tokens)
            patches += 1
            continue
        for extra in extras(tokens):
            blank(blanked, extra)
            faces += 1
    return Plain(bytes(blanked), faces, patches)


def is_such(text):
    """Whether a text has such numbers or patches."""
    found = plain(text)
    return found.faces > 0 or found.patches > 0


def brushes(text):
    """The tokens of each brush, with its brackets."""
    depth, tokens = 0, []
    for token in TOKEN.finditer(text):
        if token.lastgroup == "comment":
            continue
        depth += (token["word"] == b"{") - (token["word"] == b"}")
        if depth > 1 or tokens:
            tokens.append(token)
        if depth < 2 and tokens:
            yield tokens
            tokens = []


def is_patch(tokens):
    """Whether a brush is a patch: its first word says so."""
    return (tokens[1]["word"] or b"").lower().startswith(b"patch")


def extras(tokens):
    """The three numbers after the mapping of each face of a brush that has them."""
    at, last = 1, len(tokens) - 1
    while at < last and tokens[at]["word"] == b"(":
        behind = at + len(FORM) + 1
        behind += len(AXES) if behind < last and tokens[behind]["word"] == b"[" else len(PLAIN)
        at = next((index for index in range(behind, last) if tokens[index]["word"] == b"("), last)
        extra = tokens[behind:at]
        if len(extra) == EXTRA and all(SPELLED.fullmatch(token["word"] or b"") for token in extra):
            yield extra


def blank(text, tokens):
    """Puts blanks in the place of some tokens and of what stands between them, but for the ends of lines."""
    begin, end = tokens[0].start(), tokens[-1].end()
    text[begin:end] = bytes(byte if byte in b"\r\n" else 32 for byte in text[begin:end])
