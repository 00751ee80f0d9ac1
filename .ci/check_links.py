#!/usr/bin/env python3
"""Holds the pages to the tree: each link of a page that git tracks leads to a file or folder, and to a heading there if it names one;
and so does each path `crates/..`, `docs/..`, `bench/..`, `samples/..`, `tools/..` or `.ci/..` that a page names lead to a file. A name
with `NAME` or `*` stands for many."""

from functools import lru_cache
from pathlib import Path
import re
import subprocess
import sys

LINK = re.compile(r"\]\(([^)#]*)(?:#([^)]*))?\)")
PATH = re.compile(r"(?<![\w/.])(?:crates|docs|bench|samples|tools|\.ci)/[\w./-]*[\w/]")


def pages():
    listed = subprocess.run(["git", "ls-files", "*.md"], capture_output=True, text=True, check=True)
    return [Path(name) for name in listed.stdout.splitlines() if Path(name).is_file()]


@lru_cache(maxsize=None)
def headings(page):
    """The names under which links find the headings of a page."""
    titles = re.findall(r"^#+ (.*)$", page.read_text(), re.M)
    return {re.sub(r"[^\w -]", "", title.lower()).replace(" ", "-") for title in titles}


def faults():
    for page in pages():
        for number, line in enumerate(page.read_text().splitlines(), 1):
            for link, heading in LINK.findall(line):
                if "://" in link:
                    continue
                target = page.parent / link if link else page
                if not target.exists():
                    yield f"{page}:{number}: the link {link} leads nowhere"
                elif heading and heading not in headings(target):
                    yield f"{page}:{number}: {target} has no heading {heading}"
            for path in PATH.findall(re.sub(r"\]\([^)]*\)", "]", line)):
                if "NAME" not in path and "/out" not in path and not Path(path).exists():
                    yield f"{page}:{number}: {path} is not there"


def main():
    found = list(faults())
    print("\n".join(found), end="\n" if found else "")
    sys.exit(1 if found else 0)


if __name__ == "__main__":
    main()
