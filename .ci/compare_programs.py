#!/usr/bin/env python3
"""Compares two programs that have the commands of `qmapc`, byte by byte, on maps and on variants of them.

    .ci/compare_programs.py ONE OTHER MAP..

It is called by hand. Each map is taken as it is, moved by 20,000, scaled so that halves, quarters and thousandths occur, and both; a
variant that would need a fourth decimal is left out. Of each text both programs have to make the same tree file and the same
listing with `compile MAP OUT --prt FILE --fast --hulls`, and the same text with `format MAP OUT`, and to print the same and end alike.
What has to be set for either stands in the environment, as for all programs."""

from collections import Counter
from fractions import Fraction
import os
from pathlib import Path
import subprocess
import sys
import tempfile

from made_variants import TooFine, points, varied

from maptext import EXTENT

FAR = 20_000
SCALES = [Fraction(1, 2), Fraction(1, 4), Fraction(1, 8), Fraction(5, 8), Fraction(1, 100), Fraction(1, 1000), Fraction(2)]
CALLS = {"compile": ["--prt", "listing", "--fast", "--hulls"], "format": []}


def way(text, times):
    """So far across each axis a scaled text is moved: to the side on which it stays in the cube, where there is one."""
    found = points(text) or [(0, 0, 0)]
    sides = [(times * min(numbers), times * max(numbers)) for numbers in zip(*found)]
    return [-FAR if high + FAR > EXTENT and low - FAR >= -EXTENT else FAR for low, high in sides]


def variants(text):
    """The names and texts of what a text is compared as."""
    for times in (Fraction(1), *SCALES):
        for by in ((0, 0, 0), way(text, times)):
            try:
                yield f"{times} of it" + (f", moved by {' '.join(map(str, by))}" if any(by) else ""), varied(text, times, by)
            except TooFine:
                yield f"{times} of it", None


def told(program, folder, call):
    """How a program ends on the text of a folder, what it prints, and the files that it makes."""
    for name in "out", "listing":
        Path(folder, name).unlink(missing_ok=True)
    done = subprocess.run([program, call, "text.map", "out", *CALLS[call]], cwd=folder, capture_output=True, check=False)
    made = [Path(folder, name) for name in ("out", "listing")]
    return done.returncode, done.stdout, [path.read_bytes() if path.exists() else None for path in made]


def difference(first, second):
    """In what two answers differ, or None."""
    parts = zip(("status", "printed text", "OUT", "listing"), (*first[:2], *first[2]), (*second[:2], *second[2]))
    return next((name for name, one, other in parts if one != other), None)


def main():
    one, other, *maps = map(os.path.abspath, sys.argv[1:])
    ends, left_out, wrong = Counter(), 0, 0
    with tempfile.TemporaryDirectory() as folder:
        for name in maps:
            for what, text in variants(Path(name).read_bytes()):
                if text is None:
                    left_out += 1
                    continue
                Path(folder, "text.map").write_bytes(text)
                for call in CALLS:
                    first, second = told(one, folder, call), told(other, folder, call)
                    ends[first[1].split(b"\n")[0].decode()[:40] if first[0] else "done"] += 1
                    found = difference(first, second)
                    if found:
                        wrong += 1
                        print(f"{os.path.basename(name)}, {what}, {call}: the {found} differs: {first[:2]} and {second[:2]}")
    for end, count in ends.most_common():
        print(f"{count} calls: {end}")
    print(f"{sum(ends.values())} calls, {left_out} variants left out, {wrong} calls differ")
    sys.exit(1 if wrong or not ends else 0)


main()
