"""The claims of docs/THEOREM.md: what each is called, and the definitions that state it, as the table at its end links them."""

from collections import namedtuple
from pathlib import Path
import re

from definitions import Missing

PAGE = Path("docs/THEOREM.md")
ROW = re.compile(r"(?m)^(\| [^|]+ \| )([^|]*\]\(\.\./crates/[^|]*)( \| )(\d+)( \| )([\d,]+)( \|)$")
LINK = re.compile(r"\[`(\w+)`\]\(\.\./crates/(\w+)/(specs|src)/([\w/]+)\.(?:antt|rt)\)")
TITLE = re.compile(r"(?m)^\*\*(\d+)\. ([^*]+)\.\*\*")
PROGRAM, TOP = "qmapc", "run"

# a row of the table: what it is called, its links as they stand there, and what they lead to, nearest first
Claim = namedtuple("Claim", "title cell reached")


def top(repository):
    """The contract of `run`, the public call of that name in a crate on which the program stands."""
    found = []
    for crate in repository.crates[PROGRAM]:
        found += [call for call in repository.public_calls(crate) if call.name == TOP]
    if len(found) != 1:
        raise Missing(f"{len(found)} crates on which {PROGRAM} stands have a public call {TOP}, and one is wanted")
    return found[0]


def reached(repository, cell):
    """All definitions and types of this repository to which the links of a cell lead: definitions of specs/, or the contract
    of `run`."""
    roots = []
    for name, crate, folder, module in LINK.findall(cell):
        if folder == "src":
            roots += repository.roots(top(repository))
        else:
            roots.append(repository.named(crate, module.replace("/", "."), name))
    if not roots:
        raise Missing(f"{PAGE} has a row without a linked definition: {cell}")
    return [named for named in repository.reach(dict.fromkeys(roots)) if named.kind != "library"]


def claims(repository):
    """Each row of the table, in order; each claim of the page has one, and the last is that of `run`."""
    page = PAGE.read_text()
    titles = dict(TITLE.findall(page))
    rows = [(row[1].strip("| "), row[2]) for row in ROW.finditer(page)]
    if sorted(titles) != sorted(name for name, _ in rows if name.isdigit()):
        raise Missing(f"{PAGE} has a claim without a row in its table, or a row without its claim")
    if not rows or "/src/" not in rows[-1][1]:
        raise Missing(f"the last row of the table of {PAGE} does not lead to the contract of {TOP}")
    for name, cell in rows:
        title = f"Claim {name}: {titles[name].lower()}" if name in titles else name[0].upper() + name[1:]
        yield Claim(title, cell, reached(repository, cell))
