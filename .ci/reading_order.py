#!/usr/bin/env python3
"""Writes the parts of docs/PROOF.md that say which definitions each claim of docs/THEOREM.md and the contract of `run` lead
to, which others there are, and which calls require something; and holds them to the sources.

    python3 .ci/reading_order.py           says what is wrong, and ends with 1 if anything is
    python3 .ci/reading_order.py --write   writes the parts anew
    python3 .ci/reading_order.py --names   prints the order with the name of each definition that is reached

The claims come in the order of the table of docs/THEOREM.md, whose last row is the contract of `run`. A file stands with the
first claim that leads to it; within a claim crates and files stand from the top down. Each file of definitions has one line:
the first sentence of the comment at its head; or, where it has none, the comment of the definition that is named as the file,
or else of those that no other one of the file names. `.ci/reading_lines` has lines that take their place."""

from pathlib import Path
import re
import sys

from check_crates import rules
from claims import TOP, claims, top
from definitions import Missing, Repository, source_file, specs_file

PAGE, LINES = Path("docs/PROOF.md"), Path(".ci/reading_lines")
BEGIN, END = "<!-- begin {}, written by .ci/reading_order.py -->\n", "<!-- end {} -->\n"


def top_down(items, below):
    """The items in an order in which each stands before all of them that are below it; those named first come early."""
    ended, seen = [], set()

    def go(item):
        if item not in seen:
            seen.add(item)
            for other in reversed(below[item]):
                go(other)
            ended.append(item)

    for item in reversed(items):
        go(item)
    wanted = set(items)
    return [item for item in reversed(ended) if item in wanted]


def lifted(steps, repository, part):
    """What the parts of what is reached, as their crates or files, have below them."""
    below = {}
    for named in steps:
        mine = below.setdefault(part(named), [])
        for other in repository.below(named):
            if other.kind != "library" and part(other) != part(named) and part(other) not in mine:
                mine.append(part(other))
    return below


def sentence(text):
    """The first sentence of a comment, as a line of a page."""
    text = re.sub(r"(?s)\. .*", "", text.strip() + " ").strip().rstrip(".:")
    return (text[:1].upper() + text[1:]).replace("*", r"\*") + "."


class Order:
    """The files to which claims and the contract of `run` lead, in reading order, and those to which none does."""

    def __init__(self):
        self.repository = Repository()
        self.call = top(self.repository)
        steps = self.repository.reach(dict.fromkeys(self.repository.roots(self.call)))
        self.of_run = {named[:3] for named in steps if named.kind != "library"}
        self.claims = list(claims(self.repository))
        self.steps = list(dict.fromkeys(named for claim in self.claims for named in claim.reached))
        self.below = lifted(self.steps, self.repository, lambda named: named[:3])
        self.crates_below = lifted(self.steps, self.repository, lambda named: named.crate)
        self.files = set(self.below)
        self.nearest = self.calls_to()
        self.lines, self.faults = {}, []
        for line in LINES.read_text().splitlines() if LINES.is_file() else []:
            if line and not line.startswith("#"):
                name, _, text = line.partition(": ")
                self.lines[name] = text

    def names(self, file):
        """What is reached of a file, from the top down, else in the order of its text."""
        kind, crate, module = file
        if kind == "definition":
            listed = [*self.repository.definitions(crate, module).texts]
        else:
            listed = re.findall(r"(?m)^ *pub (?:struct|enum|trait|const) (\w+)", self.repository.source(crate, module).text)
        here = [named for named in self.steps if named[:3] == file]
        below = {named: [other for other in self.repository.below(named) if other in here] for named in here}
        here.sort(key=lambda named: listed.index(named.name) if named.name in listed else len(listed))
        return [named.name for named in top_down(here, below)]

    def main_names(self, file, having):
        """The definitions of a file that say what it is about: the one named as it, or those that no other one names."""
        names = self.names(file)
        word = file[2].split(".")[-1]
        same = [f"{before}{word}" for before in ("", "Is", "Are", "Has", "IsIn") if f"{before}{word}" in names]
        below = {other.name for named in self.steps if named[:3] == file for other in self.repository.below(named) if other[:3] == file}
        return [name for name in same[:1] or [name for name in names if name not in below] if name in having]

    def says(self, file):
        """The one line of a file of definitions."""
        key = f"{file[1]}/{file[2]}"
        if key in self.lines:
            return sentence(self.lines[key])
        read = self.repository.definitions(*file[1:])
        if read.head:
            return sentence(read.head)
        docs = [sentence(read.docs[name]) for name in self.main_names(file, read.docs)[:2]]
        if not docs:
            self.faults.append(f"{read.file} has neither a comment at its head nor a line '{key}: ..' in {LINES}")
        return " ".join(docs)

    def file_line(self, file, with_names=False):
        kind, crate, module = file
        names = ", ".join(f"`{name}`" for name in self.names(file))
        if kind == "definition":
            also = f" ({names})" if with_names else "" if file in self.of_run else f" ({self.by(file)})"
            return f"- [{module}](../{specs_file(crate, module)}){also}: {self.says(file)}"
        source = self.repository.source(crate, module)
        text = source.head() or source.doc(self.names(file)[0])
        return f"- {names} in [{source_file(crate, module).name}](../{source.file}): {sentence(text)}"

    def reading(self, with_names=False):
        """The lines of the reading order: for each claim those of the files that it is the first to lead to, crate by crate."""
        kinds = {name: f": {sentence(what)}" for name, what, _, _ in rules()}
        had = set()
        for claim in self.claims:
            reached = dict.fromkeys(named[:3] for named in claim.reached)
            files = top_down([file for file in reached if file not in had], self.below)
            yield f"\n### {claim.title}\n\nStated by {claim.cell}. New here: {len(files)} of {len(reached)} files.\n"
            for crate in top_down(list(dict.fromkeys(file[1] for file in files)), self.crates_below):
                yield f"- `{crate}`{kinds.pop(crate, '')}"
                yield from (f"  {self.file_line(file, with_names)}" for file in files if file[1] == crate)
            had.update(files)

    def of_library(self):
        below = {other for named in self.steps for other in self.repository.below(named)}
        modules = sorted({named.module for named in below if named.kind == "library"})
        return "Beside these they name definitions of the standard library, in its modules " + ", ".join(modules) + "."

    def calls_to(self):
        """The nearest public call that leads to each file."""
        nearest = {}
        for place, crate in enumerate(self.repository.crates):
            for call in self.repository.public_calls(crate):
                for named, steps in self.repository.reach(dict.fromkeys(self.repository.roots(call))).items():
                    here = (steps, crate != named.crate, place, f"{crate}::{call.name}")
                    nearest[named[:3]] = min(nearest.get(named[:3], here), here)
        return nearest

    def by(self, file):
        return f"`{self.nearest[file][3]}`" if file in self.nearest else "no call, proofs alone"

    def apart(self):
        """A line for each crate with files of definitions to which neither a claim nor the contract of `run` leads."""
        for crate in self.repository.crates:
            listed = []
            for module in self.repository.modules(crate):
                file = ("definition", crate, module)
                if file not in self.files:
                    listed.append(f"[{module}](../{specs_file(crate, module)}) ({self.by(file)})")
            if listed:
                yield f"- `{crate}`: {', '.join(listed)}."

    def other_faults(self):
        for name in self.lines:
            crate, _, module = name.partition("/")
            if ("definition", crate, module) not in self.files:
                yield f"{LINES} has a line for {name}, which is no file of the reading order"
        for file in sorted(file for file in self.files if file[0] == "definition"):
            name = specs_file(*file[1:])
            if file[2].startswith("inner."):
                yield f"a claim or the contract of {TOP} leads to {name}, which therefore has to stand outside specs/inner"
            if file not in self.nearest:
                yield f"a claim leads to {name}, and no public call does"

    def required(self):
        """A line for each crate with the public calls that require something."""
        for crate in self.repository.crates:
            names = [call.name for call in self.repository.public_calls(crate) if re.search(r"\brequires\b", call.text)]
            if names:
                yield f"- `{crate}`: {', '.join(f'`{name}`' for name in dict.fromkeys(names))}."

    def parts(self):
        """What is written into the page, by the name of each part."""
        definitions = [file for file in self.of_run if file[0] == "definition"]
        head = (
            f"The contract of `{TOP}` stands in [{self.call.source.file.name}](../{self.call.source.file}). It leads to "
            f"{len(definitions)} files of definitions, and to types in {len(self.of_run) - len(definitions)} files of `src`; "
            f"claims lead to {len(self.files - self.of_run)} more, each with the call nearest to it."
        )
        return {
            "reading order": [head, *self.reading(), "", self.of_library()],
            "apart": [*self.apart()],
            "required": [*self.required()],
        }


def written(page, parts):
    """The page with its parts written anew."""
    for name, lines in parts.items():
        begin, end = BEGIN.format(name), END.format(name)
        before, found, rest = page.partition(begin)
        _, found_end, after = rest.partition(end)
        if not found or not found_end:
            raise Missing(f"{PAGE} has not the two lines between which the part '{name}' stands")
        page = before + begin + "\n".join(lines) + "\n" + end + after
    return page


def main():
    order = Order()
    if sys.argv[1:] == ["--names"]:
        print("\n".join(order.reading(with_names=True)))
        return
    page = PAGE.read_text()
    now = written(page, order.parts())
    faults = [*order.faults, *order.other_faults()]
    if sys.argv[1:] == ["--write"]:
        PAGE.write_text(now)
    elif now != page:
        faults.append(f"{PAGE} does not say what the sources say: write it anew by python3 .ci/reading_order.py --write")
    print("\n".join(faults), end="\n" if faults else "")
    sys.exit(1 if faults else 0)


if __name__ == "__main__":
    try:
        main()
    except Missing as fault:
        sys.exit(f"reading_order: {fault}")
