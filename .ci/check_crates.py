#!/usr/bin/env python3
"""Holds crates.txt to .ci/crate_rules and to docs/ARCHITECTURE.md. By the rules each crate has one kind, and nothing below a
crate is something on which it may not stand; definitions, lemmas and types stand on no code. In the tables of the bands each
crate stands once, in the column of its kind, after everything that it stands on, in the order in which one reads; its
name there leads to its page. Each crate has a page crates/NAME/README.md and a row in docs/GATE.md."""

from collections import Counter
from pathlib import Path
import re
import sys

KINDS = {"definitions", "lemma library", "types", "code", "tests", "program"}
WITHOUT_CODE = {"definitions", "lemma library", "types"}
ANY_CODE = "any code"
# where in a row of a band those crates stand that have no code, and those that have
HEAD = ["subject", "definitions", "code"]
PAGE = "../crates/{}/README.md"


def lines(name):
    """Each line of a file that says something."""
    for line in Path(name).read_text().splitlines():
        line = line.partition("#")[0].strip()
        if line:
            yield line


def crates():
    """What crates.txt says: each crate with the names that it stands on."""
    found = {}
    for line in lines("crates.txt"):
        name, _, below = line.partition(":")
        found[name.split()[0]] = set(below.split())
    return found


def rules():
    """What .ci/crate_rules says: each crate with what it is, its kind, and what it may not stand on."""
    for line in lines(".ci/crate_rules"):
        cells = [cell.strip() for cell in line.split("|")]
        yield (*cells, *[""] * 4)[:4]


def kinds():
    return {name: kind for name, _, kind, _ in rules()}


def all_below(name, known):
    found, left = set(), [name]
    while left:
        for below in known.get(left.pop(), ()):
            if below not in found:
                found.add(below)
                left.append(below)
    return found


def faults_of_rules(known):
    kind_of = kinds()
    code = {name for name, kind in kind_of.items() if kind not in WITHOUT_CODE}
    count = Counter(name for name, *_ in rules())
    for name in sorted(set(count) - set(known)):
        yield f".ci/crate_rules has a line for {name}, which crates.txt does not list"
    for name in sorted(known):
        if count[name] != 1:
            yield f"{name} has {count[name]} lines in .ci/crate_rules, and wants one: NAME | WHAT IT IS | KIND | MAY NOT STAND ON"
    for name, what, kind, never in rules():
        if not what:
            yield f"{name}: .ci/crate_rules does not say what it is"
        if kind not in KINDS:
            yield f"{name}: its kind is '{kind}', and not one of {', '.join(sorted(KINDS))}"
        named = set(never.removeprefix(ANY_CODE).split())
        forbidden = named | (code if never.startswith(ANY_CODE) else set())
        for other in sorted(all_below(name, known) & forbidden):
            yield f"{name} may not stand on {other}, and does"
        for other in sorted(known.get(name, ())):
            if kind in WITHOUT_CODE and kind_of.get(other, kind) not in WITHOUT_CODE:
                yield f"{name}, whose kind is '{kind}', stands on {other}, whose kind is '{kind_of[other]}'"
        for other in sorted(named - set(known)):
            yield f"{name}: .ci/crate_rules names {other}, which is no crate"


def faults_of_pages(known):
    pages = {page.parent.name for page in Path("crates").glob("*/README.md")}
    costs = set(re.findall(r"(?m)^\| `(\w+)` \|", Path("docs/GATE.md").read_text()))
    for what, having in (("page crates/{}/README.md", pages), ("row `{}` in the table of docs/GATE.md", costs)):
        for name in sorted(set(known) - having):
            yield f"{name} has no {what.format(name)}"
        for name in sorted(having - set(known)):
            yield f"there is a {what.format(name)}, and crates.txt lists no such crate"


def places():
    """Each crate of the bands in reading order, with the head of its column and the link from its name."""
    head = None
    for line in Path("docs/ARCHITECTURE.md").read_text().splitlines():
        cells = [cell.strip() for cell in line.strip().strip("|").split("|")] if line.startswith("|") else []
        if [cell.lower() for cell in cells[:3]] == HEAD:
            head = [cell.lower() for cell in cells]
        elif not cells:
            head = None
        elif head:
            for column, cell in zip(head, cells):
                for name, link in re.findall(r"\[`(\w+)`\]\(([^)]*)\)", cell):
                    yield name, column, link


def faults_of_bands(known):
    kind_of, found = kinds(), list(places())
    at = {name: place for place, (name, _, _) in enumerate(found)}
    for name in sorted(set(known) - set(at)):
        yield f"{name} has no place in the bands of docs/ARCHITECTURE.md"
    for name in sorted(set(at) - set(known)):
        yield f"the bands of docs/ARCHITECTURE.md have {name}, which crates.txt does not list"
    if len(found) != len(at):
        yield "the bands of docs/ARCHITECTURE.md have a crate twice"
    for name, column, link in found:
        wanted = "definitions" if kind_of.get(name) in WITHOUT_CODE else "code"
        if column != wanted:
            yield f"{name}, whose kind is '{kind_of.get(name)}', stands in the column '{column}'"
        if link != PAGE.format(name):
            yield f"the name {name} leads to {link}, and its page is {PAGE.format(name)}"
    for name in known:
        for below in known[name]:
            if name in at and below in at and at[below] >= at[name]:
                yield f"{name} stands on {below}, which comes after it in the bands"


def main():
    known = crates()
    found = [*faults_of_rules(known), *faults_of_pages(known), *faults_of_bands(known)]
    print("\n".join(found), end="\n" if found else "")
    sys.exit(1 if found else 0)


if __name__ == "__main__":
    main()
