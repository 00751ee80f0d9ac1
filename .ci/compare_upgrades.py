#!/usr/bin/env python3
"""Compares what `PROGRAM upgrade` writes with what the plain slow writer `.ci/made_trees.py` writes.

    .ci/compare_upgrades.py PROGRAM TREE..

The trees are files as the compiler wrote them: each is written in version 1, which has the least bound, and the program has to
make of that what the plain writer makes of it in version 2. Others are made here: of slanted planes, with long rows and without rows, in a large world and with sections. What was
upgraded is upgraded once more, and stays; some of the sections are clip hulls, and some only say so. The file that is read stays, and has the same answers. Where it is cut off, or has a
byte too many, its fault is printed, and OUT is as it was."""

import os
from pathlib import Path
import random
import subprocess
import sys
import tempfile

sys.path.insert(0, str(Path(__file__).resolve().parent.parent / "tools"))

import made_sections
from made_trees import SOLID, cube, long_tree, random_tree, tree_file, written
import treefile

SECTIONS = [(3, b"abc"), (4, b""), (2 ** 32 - 1, bytes(70000))]
FAULTS = {"short": 1, "magic": 2, "trailing": 8}
OLD = b"what OUT had before" * 9999
QUERIES = ["count", "at=0,0,0", "at=-300.5,17,80.25", "at=4095.999999,-1,2", "at=4096,0,0", "at=0,-32767,0", "at=0,0,32768",
           "hull=1,0,0,0", "hull=2,-300.5,17,80.25", "hull=1,4096,0,0", "hull=2,0,-32768,0",
           "trace=0,0,0,100,50,-25.5", "trace=-300,17,80,-300,17,80", "trace=0,0,0,0,0,32768", "hulltrace=1,-100,0,30,100,0,30",
           "hulltrace=2,0,0,0,0,-32768,0", "row=0", "row=3", "row=999999", "sees=0,1", "sees=2,0", "sees=0,999999"]


def told(program, *words):
    """How the program ends on words, and what it prints and says."""
    ran = subprocess.run([program, *words], capture_output=True, check=False)
    return ran.returncode, ran.stdout.decode(), ran.stderr.decode()


def upgraded(program, data):
    """How the program ends on a file that it has to upgrade, what it prints and says, and what OUT then is; the file may not change."""
    Path("given.tree").write_bytes(data)
    Path("made.tree").write_bytes(OLD)
    answer = told(program, "upgrade", "given.tree", "made.tree")
    if Path("given.tree").read_bytes() != data:
        return answer, "and TREE has changed"
    return answer, Path("made.tree").read_bytes()


def faults(program, data):
    """What is wrong with how a tree file is upgraded."""
    tree = treefile.decode(data)
    wanted = written(tree, 2)
    for version, given in (2, wanted), (tree.version, data):
        if upgraded(program, given) != ((0, f"version {version} to 2\n", ""), wanted):
            yield f"is not what it should be from version {version}"
    for query in QUERIES:
        if told(program, "inspect", "given.tree", query) != told(program, "inspect", "made.tree", query):
            yield f"has another answer to {query}"
    rng = random.Random(len(data))
    for torn in [data[:rng.randrange(len(data))] for _ in range(4)] + [data + b"x", b"q" + data[1:]]:
        try:
            treefile.decode(torn)
        except treefile.Fault as fault:
            text = f"tree fault {FAULTS[fault.words]} at byte {fault.place}: {fault.words}\n"
            if upgraded(program, torn) != ((8, text, ""), OLD):
                yield f"of which {len(torn)} bytes are there has not the fault that is due, or OUT has changed"


def made():
    """Tree files of both versions."""
    rng = random.Random(5)
    hulls = [(2, treefile.BOUNDS[-1], sections) for sections in made_sections.hulls(rng)]
    for form in (1,), (2, treefile.BOUNDS[-1]), (2, treefile.BOUNDS[0], SECTIONS), *hulls:
        yield from (cube(*form), random_tree(rng, 40, True, *form), random_tree(rng, 7, False, *form))
        yield tree_file([], [], [(SOLID, 1)], None, *form)
    yield written(treefile.decode(long_tree(700)), 1)


def main():
    program = os.path.abspath(sys.argv[1])
    read = [Path(name).read_bytes() for name in sys.argv[2:]]
    given = [written(treefile.decode(data), 1) for data in read] + [*made()]
    wrong = [f"{name} is not what the plain writer writes" for name, data in zip(sys.argv[2:], read)
             if written(treefile.decode(data)) != data or treefile.decode(data).version != 2]
    with tempfile.TemporaryDirectory() as folder:
        os.chdir(folder)
        wrong += [f"tree {number}, of {len(data)} bytes: what is made {fault}" for number, data in enumerate(given)
                  for fault in faults(program, data)]
        os.chdir("/")
    print(*wrong[:20], f"{len(given)} trees upgraded, {len(wrong)} faults", sep="\n")
    sys.exit(1 if wrong else 0)


main()
