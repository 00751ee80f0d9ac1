"""The steps of `qmbuild`: from a level as an editor saves it to a tree, a leak line, and a file for engines."""

import os

from build_words import words_of
from cells import Cells, NoContact
from compiler import DONE, FAULTY, LEAKS, NOT_RUN, Runs
from console import say, warn
from ending import Ended, Signals
import faults
import maptext
from points import printed
import preparing
from products import Products
from progress import Progress
import quake3
import report
import treefile

NAME = "qmbuild"
# exit statuses beside those that `compiler` names
NO_COMMAND, NOT_READ, NOT_WRITTEN, NO_MEMORY = 2, 5, 6, 7
# the most bytes that a text may have
LIMIT = 1 << 26


class Stopped(Exception):
    """Why the build cannot go on, in a line, and its status."""

    def __init__(self, status, why=None):
        super().__init__(why)
        self.status, self.why = status, why


class Build:
    """A level that is built."""

    def __init__(self, asked, signals, progress):
        self.asked, self.signals, self.progress = asked, signals, progress
        self.products = Products(asked)
        self.folder = self.runs = None

    def build(self):
        """Builds the level, and answers the exit status."""
        same = self.products.level_itself()
        if same:
            raise Stopped(NO_COMMAND, f"{same} is the level itself: name the products otherwise")
        text = self.read()
        with self.signals.scratch(self.products.folder) as self.folder:
            self.runs = Runs(self.folder, self.signals, self.progress)
            text = preparing.readable(self.asked, text, self.progress)
            self.write("level.map", text)
            with self.progress.doing("reading the level"):
                answer = self.runs.compiler("format", "level.map", "format.map")
            if answer.fault:
                self.tell_of_faults(text, answer.fault)
                return FAULTY
            self.expect(answer, DONE)
            self.write("level.map", preparing.whole(self.asked, text, self.progress))
            answer = self.compiled()
            self.finish_the_tree(answer, text)
            if self.asked.bsp:
                self.make_a_bsp()
            return answer.status

    def read(self):
        """The text of the level, as far as one can be read."""
        try:
            with open(self.asked.level, "rb") as file:
                return file.read(LIMIT + 1)
        except OSError as fault:
            raise Stopped(NOT_READ, f"{self.asked.level}: {fault.strerror}") from None

    def path(self, name):
        """A file of the folder for what is made on the way."""
        return os.path.join(self.folder, name)

    def write(self, name, text):
        """Writes such a file."""
        with open(self.path(name), "wb") as file:
            file.write(text)

    def tell_of_faults(self, text, first):
        """Tells of the first fault, or of each face that is refused as well, and which words may help."""
        with self.progress.doing("looking for what is refused"):
            found, why = faults.found(text, first, self.asked.all)
        for fault, place in found:
            say(*faults.told(self.asked.level, text, fault, place))
        if why:
            warn(f"{NAME}: not all faces could be read: {why}\n")
        if first.number == faults.UNEXPECTED and quake3.is_such(text):
            warn(f"{NAME}: this is a map of the Quake 3 family: build it with --q3\n")
        if first.name in faults.NUMBERS and not self.asked.mend:
            warn(f"{NAME}: --mend takes points near by, where there are any{'' if self.asked.all else '; --all lists each such face'}\n")

    def compiled(self):
        """The answer of the compiler, for the tree level.tree: first with coarse visibility, which says how much is ahead."""
        words = ["compile", "level.map", "level.tree"]
        words += ["--threads", str(self.asked.threads)] if self.asked.threads else []
        words += ["--hulls"] if self.asked.hulls or self.asked.bsp else []
        words += ["--models"] if self.asked.models else []
        words += ["--faces"] if self.asked.faces else []
        with self.progress.doing("compiling"):
            answer = self.runs.compiler(*words, "--fast")
        self.expect(answer, DONE, LEAKS)
        if answer.status == LEAKS or not self.asked.full:
            return answer
        if report.is_open(answer):
            self.progress.line(f"{NAME}: by coarse visibility each leaf sees {report.average(answer)}: the full one may take hours")
        with self.progress.doing("computing the full visibility"):
            answer = self.runs.compiler(*words, portals=2 * answer.counts["portals"])
        self.expect(answer, DONE)
        return answer

    def expect(self, answer, *statuses):
        """Stops where the compiler ended otherwise."""
        status, why = answer.status, answer.verdict
        if status in statuses:
            return
        if status == NO_MEMORY:
            why = "memory ran out"
        elif status == NOT_WRITTEN:
            why = f"{self.products.folder}: {why}"
        elif status == FAULTY:
            why = f"{self.asked.level}, with its layers and groups merged: {why}"
        elif status not in (NOT_RUN, NOT_READ):
            status, why = NOT_RUN, f"the compiler ended with {status}: {why}"
        raise Stopped(status, why)

    def finish_the_tree(self, answer, text):
        """Puts the tree into its place, and says what was found. After a leak its line is written; an old one goes once the level is
        sealed."""
        line, why = self.leak_line(answer.trail) if answer.status == LEAKS else (None, None)
        os.replace(self.path("level.tree"), self.products.tree)
        say(report.verdict(answer, text))
        if answer.status == LEAKS:
            say(f"leak line: {' and '.join(self.products.lines)}" if line else f"no leak line: {why}")
            say(" ".join(["trail:", *map(str, answer.trail)]))
        say(f"tree: {self.products.tree}")
        with self.signals.held():
            if line:
                self.products.put_line(line)
            elif answer.verdict == "sealed":
                self.products.remove_line()

    def leak_line(self, trail):
        """The leak line as a point file, or why there is none."""
        with self.progress.doing("finding the leak line"):
            try:
                return printed(Cells(treefile.load(self.path("level.tree"))), trail), None
            except NoContact as fault:
                return None, fault

    def make_a_bsp(self):
        """Writes the file for engines, and says what is in it."""
        words = ["level.map", os.path.abspath(self.products.tree), "level.bsp"]
        for wad in self.asked.wad:
            words += ["--wad", os.path.abspath(wad)]
        with self.progress.doing("making the .bsp"):
            status, text = self.runs.tool("qmbsp", *words)
        if status:
            raise Stopped(NOT_RUN, f"{self.products.bsp} is not made")
        os.replace(self.path("level.bsp"), self.products.bsp)
        say(text.replace("level.bsp", self.products.bsp).rstrip("\n"))


def run(words):
    """Does what the words ask for, and answers the exit status."""
    asked, signals, progress = words_of(words), Signals(), Progress(NAME)
    try:
        status, why = built(asked, signals, progress)
    except Ended as ended:
        progress.end()
        ended.end()
    progress.end()
    if why:
        warn(f"{NAME}: {why}\n")
    return status


def built(asked, signals, progress):
    """The status of a build, and why it cannot be done, where it cannot."""
    try:
        return Build(asked, signals, progress).build(), None
    except Stopped as stopped:
        return stopped.status, stopped.why
    except maptext.NoMap as fault:
        return NOT_RUN, f"{asked.level}: {fault}"
    except OSError as fault:
        return NOT_WRITTEN, f"{fault.filename or 'standard output'}: {fault.strerror}"
    except MemoryError:
        return NO_MEMORY, "memory ran out"
