#!/usr/bin/env python3
"""Runs `PROGRAM` on files, as the tables in `.ci/rows` say: each row names the files, the words, the status, the printed text, and what
every file holds afterwards.

    .ci/check_rows.py PROGRAM

Prints each row that is wrong, and how many rows there were."""

from pathlib import Path
import sys

sys.path.insert(0, str(Path(__file__).resolve().parent))

from rows import asked, brushes, compiled, demo, faces, hulls, leaks, models, portals, texts, traces, trees, words, workers  # noqa: E402
from rows.table import fault_of, words_of  # noqa: E402

TABLES = (brushes, compiled, portals, leaks, workers, asked, hulls, models, faces, traces, trees, texts, words, demo)


def wrong_in(program, table):
    """How many rows of a table there are, and how many are wrong."""
    rows, wrong = 0, 0
    for row in table.rows():
        fault = fault_of(program, row)
        if fault:
            print(f"{table.__name__}, {' '.join(words_of(row.words))!r}: {fault}; wanted {row.status} and {str(row.printed)[:300]!r}")
        rows, wrong = rows + 1, wrong + bool(fault)
    return rows, wrong


def main(program):
    program = str(Path(program).resolve())
    counts = [wrong_in(program, table) for table in TABLES]
    rows, wrong = (sum(column) for column in zip(*counts))
    print(f"{rows} rows, {wrong} wrong")
    return wrong != 0


if __name__ == "__main__":
    if len(sys.argv) != 2:
        sys.exit(__doc__)
    sys.exit(main(sys.argv[1]))
