#!/usr/bin/env python3
"""Holds pages to plain English, as far as a script can see it, and to a number of words: each page of the list below has none
of the turns of phrase that stand after it, and at most so many words as `wc -w` counts, without the parts that a script writes;
and so have all of them together. Code, in blocks and between backticks, is not looked at. Words in tables count with the bars.
Each crate's page has at most MOST_OF_A_CRATE words, and none of these turns of phrase either."""

from pathlib import Path
import re
import sys

# the pages that are held, with the most words of each
PAGES = {
    "CONTRIBUTING.md": 1450,
    "README.md": 800,
    "bench/README.md": 2300,
    "docs/ARCHITECTURE.md": 2550,
    "docs/DECISIONS.md": 2050,
    "docs/EDITORS.md": 4500,
    "docs/GATE.md": 2200,
    "docs/GLOSSARY.md": 2100,
    "docs/LARGE.md": 400,
    "docs/LISTING.md": 400,
    "docs/MAPTEXT.md": 1600,
    "docs/PLAY.md": 1000,
    "docs/PROOF.md": 3050,
    "docs/SIGHT.md": 1350,
    "docs/SPACE.md": 1350,
    "docs/THEOREM.md": 1300,
    "docs/TREEFILE.md": 4500,
    "docs/WINDINGS.md": 1000,
    "tools/README.md": 2850,
}
# of all of these together
MOST = 36000
# of each crate's page, and of samples/README.md
MOST_OF_A_CRATE = 1500

# what a script writes into a page, which is not counted and not looked at
WRITTEN = [
    re.compile(r"<!-- begin .*?<!-- end [^>]*-->", re.S),
    re.compile(r"^\| Crate \| lines \| edits .*\Z", re.S | re.M),
    re.compile(r"^\| Claim \| Stated by .*\Z", re.S | re.M),
]

# what is refused, with what to write in its place
HABITS = [
    (r"beside (one another|each other)", "in parallel, or side by side"),
    (r"of which\b", "two sentences"),
    (r"as many as there (are|can be)", "all, or the number's name"),
    (r"(stands?|stood|written|printed|comes?|follows?) (right |directly )?behind\b", "after; planes alone have a back"),
    (r"(right|directly) behind\b", "right after"),
    (r"behind CODE", "after"),
    (r"one behind another", "one after another"),
    (r"want(s|ed)? of memory", "lack of memory"),
    (r"be it itself", "itself included"),
    (r"(?:^|[.:;] )Of (a|an|each|the|several|all) [^.,;:]*,? (it|one|is|are|none|no)\b", "the subject first"),
    (r"[Nn]othing stops one\b|\bone (sees|walks|asks|finds|has to|wants)\b", "you"),
]


def by_hand(text):
    """A page without what a script writes into it, with as many lines."""
    for part in WRITTEN:
        text = part.sub(lambda found: "\n" * found.group().count("\n"), text)
    return text


def plain_lines(text):
    """Each line with its number, without code."""
    inside = False
    for number, line in enumerate(text.splitlines(), 1):
        if line.lstrip().startswith("```"):
            inside = not inside
        elif not inside and not line.startswith("    "):
            yield number, re.sub(r"`[^`]*`", "CODE", line)


def turns(name, text):
    """The turns of phrase in a page that are refused."""
    for number, line in plain_lines(text):
        for habit, instead in HABITS:
            for found in re.finditer(habit, line):
                yield f"{name}:{number}: '{found.group().strip()}': write {instead}"


def faults():
    everything = 0
    for name, most in PAGES.items():
        text = by_hand(Path(name).read_text())
        words = len(text.split())
        everything += words
        if words > most:
            yield f"{name} has {words} words, and {most} are allowed"
        yield from turns(name, text)
    for page in [*sorted(Path("crates").glob("*/README.md")), Path("samples/README.md")]:
        text = page.read_text()
        if len(text.split()) > MOST_OF_A_CRATE:
            yield f"{page} has {len(text.split())} words, and {MOST_OF_A_CRATE} are allowed"
        yield from turns(page, text)
    if everything > MOST:
        yield f"all pages have {everything} words, and {MOST} are allowed"
    for name in sorted({str(page) for page in Path("docs").glob("*.md")} - set(PAGES)):
        yield f"{name} has no limit in .ci/check_voice.py"


def main():
    found = list(faults())
    print("\n".join(found), end="\n" if found else "")
    sys.exit(1 if found else 0)


if __name__ == "__main__":
    main()
