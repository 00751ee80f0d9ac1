"""Rows of a table: a run of the program on files, how it ends, what it prints, and what every file holds afterwards."""

from __future__ import annotations

from dataclasses import dataclass, field
from pathlib import Path
import subprocess
import tempfile
from typing import Callable, NamedTuple


class Lines(NamedTuple):
    """The first lines of a text, whatever follows."""

    first: str


class Beside(NamedTuple):
    """A test of the bytes of a file and of those of another one."""

    other: str
    test: Callable[[bytes, bytes], bool]


@dataclass(frozen=True)
class Row:
    """A run of the program in a folder that holds some files."""

    words: str | list
    status: int
    # the whole text, or its first lines
    printed: str | Lines
    # what the folder holds before, by name
    files: dict = field(default_factory=dict)
    # what it holds afterwards besides: bytes, a test of bytes, or a test beside another file
    after: dict = field(default_factory=dict)
    # commands that are run before, for the files that they make
    first: tuple = ()


def words_of(words):
    """The words of a command: a list, or a text of words with one space between two."""
    return words.split(" ") if isinstance(words, str) else words


def contents(folder):
    """What each file of a folder holds, by name."""
    return {path.name: path.read_bytes() for path in Path(folder).iterdir()}


def run(program, words, folder):
    """Runs the program in a folder."""
    return subprocess.run([program, *words_of(words)], cwd=folder, capture_output=True, timeout=120)


def says(text, wanted):
    """Whether a text is the wanted one, or begins with the wanted lines."""
    return text.startswith(wanted.first.encode()) if isinstance(wanted, Lines) else text == wanted.encode()


def is_held(found, name, want):
    """Whether a file of a folder is as it is wanted."""
    if isinstance(want, Beside):
        return want.test(found[name], found[want.other])
    return want(found[name]) if callable(want) else found[name] == want


def holds(found, wanted):
    """Whether a folder holds the wanted files, and no other."""
    return found.keys() == wanted.keys() and all(is_held(found, name, want) for name, want in wanted.items())


def fault_of(program, row):
    """What is wrong with a run, or None."""
    with tempfile.TemporaryDirectory() as folder:
        for name, data in row.files.items():
            Path(folder, name).write_bytes(data)
        Path(folder, "other").write_bytes(b"kept")
        for words in row.first:
            run(program, words, folder)
        before = contents(folder)
        done = run(program, row.words, folder)
        if done.returncode != row.status or not says(done.stdout, row.printed) or done.stderr:
            return f"ended with {done.returncode}, printed {done.stdout[:300]!r} and {done.stderr[:300]!r}"
        return None if holds(contents(folder), {**before, **row.after}) else "left other files"
