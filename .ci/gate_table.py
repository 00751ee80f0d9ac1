#!/usr/bin/env python3
"""Holds the table of docs/GATE.md to the tree: for each crate its lines, must-fail edits and tests, and the seconds that
these cost by the formula of that page, and the minutes that the page says the whole and the program alone take.
`--write` writes them."""

from pathlib import Path
import re
import sys

PAGE = Path("docs/GATE.md")
HEAD = "| Crate | lines | edits | tests | seconds |\n| --- | --- | --- | --- | --- |\n"
SAID = re.compile(r"by the formula they are \d+ and \d+ now")


def crates():
    """What crates.txt says: each crate with the names that it stands on."""
    found = {}
    for line in Path("crates.txt").read_text().splitlines():
        name, _, below = line.partition("#")[0].partition(":")
        if name.strip():
            found[name.split()[0]] = below.split()
    return found


def counts(crate):
    """Lines, edits and tests of a crate."""
    folder = Path("crates") / crate
    texts = [file.read_text() for file in (folder / "src").rglob("*.rt")]
    tests = sum(len(re.findall(r"^\s*#\[test\]", text, re.M)) for text in texts)
    return sum(text.count("\n") for text in texts), len(list((folder / "must-fail").glob("*.edit"))), tests


def seconds(lines, edits, tests):
    # an edit that is alone has no check before it, and is tried from nothing, which costs as much
    checks = 1 + (edits > 0) + (tests > 0)
    return checks * (8 + lines / 10) + 12 * edits + 7 * tests + 14 * (tests > 0)


def program(known):
    """The crates of the program, whose building proves each of them once."""
    found, left = set(), ["qmapc"]
    while left:
        name = left.pop()
        if name in known and name not in found:
            found.add(name)
            left += known[name]
    return found


def page():
    """The page as it has to be."""
    known = crates()
    counted = {crate: counts(crate) for crate in known}
    whole = [sum(column) for column in zip(*counted.values())]
    cost = sum(seconds(*row) for row in counted.values())
    alone = sum(seconds(counted[crate][0], 0, 0) for crate in program(known))
    rows = [(f"`{crate}`", *row, seconds(*row)) for crate, row in counted.items()] + [("all", *whole, cost)]
    table = "".join(f"| {name} | {lines:,} | {edits} | {tests} | {time:,.0f} |\n" for name, lines, edits, tests, time in rows)
    text = PAGE.read_text()
    text = re.sub(re.escape(HEAD) + r"(?:\|.*\n)*", lambda _: HEAD + table, text)
    return SAID.sub(f"by the formula they are {cost / 60:.0f} and {alone / 60:.0f} now", text)


def main():
    wanted = page()
    if sys.argv[1:] == ["--write"]:
        PAGE.write_text(wanted)
    elif wanted != PAGE.read_text():
        print("the table of docs/GATE.md is not that of the tree: python3 .ci/gate_table.py --write")
        sys.exit(1)


if __name__ == "__main__":
    main()
