#!/usr/bin/env python3
"""Holds names to one meaning. A name that a crate defines in specs/, outside specs/inner, stands in specs/ of no other
crate. Where code of another crate has a public type, function or method of that name, its file imports the definition,
as the contract of a function or the view of a type does that means the same; the few that mean the same and have no use
for the definition are listed below. Tests and programs may name their own items as they like."""

from collections import defaultdict
from pathlib import Path
import re
import sys

from check_crates import kinds

DEFINITION = re.compile(r"^(?:(?:  )?(?:(?:abbrev|unfoldable) pub|pub (?:record|data))|pub(?! mod\b| use\b)) ([^\s:({]+)", re.M)
ITEM = re.compile(r"^\s*pub\s+(?:const\s+)?(?:fn|struct|enum|trait|type|const)\s+(\w+)", re.M)
IMPORT = re.compile(r"use Rattle\.(\w+)\.specs\.[\w.]+\.\{([^}]*)\}")

# a public item of code, and the crate whose definition means the same
SAME = {
    ("qm_geom", "cross"): "qm_space",  # of vectors, where the definition is of directions, which are points
    ("qm_words", "Order"): "qm_commands",  # what words ask for, with names that are borrowed from them
    ("qm_tree", "are_numbered"): "qm_formats",  # what the function answers, as a part of the layout of a file
    ("qm_wind", "rotated"): "qm_convex",  # the law of rotated windings
}


def definitions():
    """Each name that is defined, with the crates and the files where it stands."""
    found = defaultdict(set)
    for file in sorted(Path("crates").glob("*/specs/**/*.antt")):
        if "out" not in file.parts:
            for name in DEFINITION.findall(file.read_text()):
                found[name].add((file.parts[1], "/".join(file.parts[3:])))
    return found


def items():
    """Each public item of code, with its crate, its file and what the file imports of other crates' definitions."""
    kind = kinds()
    for file in sorted(Path("crates").glob("*/src/**/*.rt")):
        crate = file.parts[1]
        if kind.get(crate) not in ("tests", "program"):
            text = file.read_text()
            imports = {(other, name.split(" as ")[0].strip()) for other, names in IMPORT.findall(text) for name in names.split(",")}
            for name in ITEM.findall(text):
                yield name, crate, file, imports


def faults():
    defined = definitions()
    public = {name: {at for at in places if not at[1].startswith("inner/")} for name, places in defined.items()}
    for name, places in sorted(defined.items()):
        if public[name] and len({crate for crate, _ in places}) > 1:
            yield f"{name} is defined in " + ", ".join(f"crates/{crate}/specs/{file}" for crate, file in sorted(places))
    for name, crate, file, imports in items():
        for other, spec in sorted(public.get(name, ())):
            if other != crate and (other, name) not in imports and SAME.get((crate, name)) != other:
                yield f"{file} has an item {name} and does not import the definition of that name in crates/{other}/specs/{spec}"
    for (crate, name), other in SAME.items():
        if other not in {at for at, _ in public.get(name, ())}:
            yield f"{other} defines no {name}, which {crate} is said to share with it"


def main():
    found = list(faults())
    print("\n".join(found), end="\n" if found else "")
    sys.exit(1 if found else 0)


if __name__ == "__main__":
    main()
