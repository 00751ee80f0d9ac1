"""Runs the compiler in a folder, and reads what it prints."""

import os
import pty
import re
import subprocess
import sys
from typing import NamedTuple, Optional

TOOLS = os.path.dirname(os.path.realpath(__file__))
# the launcher of the repository, or the program itself where the tools are installed
PROGRAM = os.path.join(os.path.dirname(TOOLS), "qmapc")
BEGUN = re.compile(rb"portals begun: ([0-9]+)\s*")
FAULT = re.compile(r"map fault ([0-9]+) at line ([0-9]+): (.*)")
LEAK = re.compile(r"leak: entity ([0-9]+)\ntrail: ([0-9 ]+)")
COUNT = re.compile(r"([a-z]+) ([0-9]+)")
DONE, NOT_RUN, LEAKS, FAULTY = 0, 1, 3, 4


class Fault(NamedTuple):
    """A fault of a text: its number, its line, and its name."""
    number: int
    line: int
    name: str


class Answer(NamedTuple):
    """How the compiler ended, and what it printed: its first line, its counts, a fault, or the entity that leaks and the trail."""
    status: int
    verdict: str
    counts: dict
    fault: Optional[Fault]
    entity: Optional[int]
    trail: Optional[list]


def answer_of(status, text):
    """What a run says."""
    lines = text.splitlines()
    fault, leak = FAULT.match(text), LEAK.match(text)
    return Answer(status, lines[0] if lines else "",
                  {match[1]: int(match[2]) for match in map(COUNT.fullmatch, lines) if match},
                  fault and Fault(int(fault[1]), int(fault[2]), fault[3]), leak and int(leak[1]),
                  leak and [int(word) for word in leak[2].split()])


class Runs:
    """Runs of programs in a folder."""

    def __init__(self, folder, signals, progress):
        self.folder, self.signals, self.progress = folder, signals, progress

    def compiler(self, *words, portals=None):
        """What the compiler answers; where `portals` is how many there are, it is said how many are begun."""
        return answer_of(*self.run([PROGRAM, *words], portals))

    def tool(self, name, *words):
        """How another tool ends, and what it prints."""
        return self.run([sys.executable, os.path.join(TOOLS, name), *words])

    def run(self, words, portals=None):
        """How a program ends, and what it prints. What it says on standard error is passed on."""
        name = os.path.join(self.folder, "printed")
        ours, theirs = os.pipe() if portals is None else ends_of_a_terminal()
        with open(name, "wb") as printed, os.fdopen(ours, "rb", 0) as said, os.fdopen(theirs, "wb", 0) as heard:
            child = None
            try:
                with self.signals.held():
                    child = subprocess.Popen(words, cwd=self.folder, stdin=subprocess.DEVNULL, stdout=printed, stderr=heard)
                heard.close()
                self.follow(said, portals)
                child.wait()
            except OSError as fault:
                return NOT_RUN, f"{fault.filename}: {fault.strerror}"
            finally:
                stop(child)
        with open(name, encoding="utf-8", errors="replace") as printed:
            return child.returncode, printed.read()

    def follow(self, said, portals):
        """Passes on what a program says, line by line, and counts the portals that it has begun."""
        rest = b""
        while more := some_of(said):
            *lines, rest = re.split(rb"[\r\n]", rest + more)
            for line in lines:
                self.heard(line, portals)
            if BEGUN.fullmatch(rest):
                self.heard(rest, portals)
        self.heard(rest, portals)

    def heard(self, line, portals):
        """A line of a program."""
        begun = BEGUN.fullmatch(line)
        if begun:
            self.progress.detail = f"{begun[1].decode()} of {portals} portals begun"
        elif line.strip():
            self.progress.line(line.decode(errors="surrogateescape"))


def ends_of_a_terminal():
    """Two ends of a terminal, since a program says on a terminal alone how far it is; or of a pipe, where there is no terminal."""
    try:
        return pty.openpty()
    except OSError:
        return os.pipe()


def some_of(said):
    """Some bytes, or none at the end: that of a terminal is told as an error."""
    try:
        return said.read(1 << 16)
    except OSError:
        return b""


def stop(child):
    """Ends a program that is still running, and waits for its end."""
    if child and child.poll() is None:
        child.terminate()
        child.wait()
