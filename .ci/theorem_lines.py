#!/usr/bin/env python3
"""Holds the table at the end of docs/THEOREM.md to the sources: how many lines of definitions each claim stands on.

    python3 .ci/theorem_lines.py           says what is wrong, and ends with 1 if anything is
    python3 .ci/theorem_lines.py --write   writes the numbers anew

A row has the number of a claim, the definitions that state it as links, and two numbers: of the files and of the lines that
these definitions lead to, they included. Blank lines, comments and imports are not counted. The last row has the contract of
`run`. Types of src/ count with the lines of their declaration."""

import sys

from claims import PAGE, ROW, reached
from definitions import Missing, Repository


def lines_of(repository, named):
    """How many lines a definition or a type has."""
    if named.kind == "definition":
        text = repository.definitions(named.crate, named.module).texts[named.name]
    else:
        text = repository.source(named.crate, named.module).item(named.name)
    return sum(1 for line in text.splitlines() if line.strip())


def counted(repository, cell):
    """The files and lines to which the linked definitions of a cell lead."""
    names = reached(repository, cell)
    return len({named[:3] for named in names}), sum(lines_of(repository, named) for named in names)


def main():
    repository = Repository()
    page = PAGE.read_text()
    if len(ROW.findall(page)) < 2:
        raise Missing(f"{PAGE} has no table of claims")

    def anew(row):
        files, lines = counted(repository, row[2])
        return f"{row[1]}{row[2]}{row[3]}{files}{row[5]}{lines:,}{row[7]}"

    now = ROW.sub(anew, page)
    if sys.argv[1:] == ["--write"]:
        PAGE.write_text(now)
    elif now != page:
        sys.exit(f"{PAGE} has other numbers than the sources: write them anew by python3 .ci/theorem_lines.py --write")


if __name__ == "__main__":
    try:
        main()
    except Missing as fault:
        sys.exit(f"theorem_lines: {fault}")
