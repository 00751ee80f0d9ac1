"""Writes lines to standard output and standard error at once, past what Python keeps."""

import os

OUTPUT, ERRORS = 1, 2


def say(*lines):
    """Prints lines. Raises `OSError` where that cannot be done."""
    put(OUTPUT, "".join(f"{line}\n" for line in lines))


def warn(text):
    """Writes a text to standard error, where that can be done."""
    try:
        put(ERRORS, text)
    except OSError:
        pass


def put(end, text):
    """Writes a text as a whole. Names of files can have bytes that are no letters."""
    rest = text.encode(errors="surrogateescape")
    while rest:
        rest = rest[os.write(end, rest):]
