#!/usr/bin/env python3
"""Compares `PROGRAM N FILE` with the plain slow readers of tree files in `tools/treefile.py` and of listings in
`.ci/slow_listing.py`, on files that are nearly right.

    .ci/compare_files.py PROGRAM

Tree files of both versions are made by `.ci/made_trees.py`: of one cube, of a world without brushes, of random trees with random
rows, with sections, and of a long one whose rows have runs of more than 255 zeros. Listings are written out here. Each is cut off at
each byte, and each byte is changed in each bit and in all, left out and doubled. For each the program has to print the fault that the slow reader finds with its place, or how many
parts the file has, and both have to write it again as it was. Others are odd in one place, as in the bound or in what a section
promises; what both have to say of these is written out here."""

import os
from pathlib import Path
import random
import struct
import subprocess
import sys
import tempfile

sys.path.insert(0, str(Path(__file__).resolve().parent.parent / "tools"))

from made_trees import SOLID, cube, long_tree, random_tree, tree_file, written
from rows.cube_files import LISTING
import slow_listing
import treefile

SECTIONS = [(1, b"abc"), (7, b""), (2 ** 32 - 1, bytes(40))]


def listed(text):
    """What the program has to print of a listing."""
    try:
        return "leaves {}, portals {}".format(*slow_listing.count(text))
    except slow_listing.Fault as fault:
        return str(fault)


def line(data):
    """What the program has to print of a file."""
    try:
        tree = treefile.decode(data)
    except treefile.Fault as fault:
        return str(fault)
    same = "true" if written(tree) == data else "false"
    return (f"version {tree.version}, bound {tree.bound}, planes {len(tree.planes)}, nodes {len(tree.nodes)}, "
            f"leaves {len(tree.leaves)}, rows {len(tree.rows or ())}, sections {len(tree.sections)}, same {same}")


def alterations(data, first):
    """The files that the program makes of one, in its order."""
    for at in range(first, len(data)):
        yield data[:at]
        for mask in (1, 2, 4, 8, 16, 32, 64, 128, 255):
            yield data[:at] + bytes([data[at] ^ mask]) + data[at + 1:]
        yield data[:at] + data[at + 1:]
        yield data[:at + 1] + data[at:]
    yield data


def said(program, data, first, name="altered.tree"):
    """What the program prints of a file and its alterations."""
    with tempfile.TemporaryDirectory() as folder:
        Path(folder, name).write_bytes(data)
        done = subprocess.run([program, str(first), name], cwd=folder, capture_output=True, text=True, check=True)
    return done.stdout.splitlines()


def altered_cubes():
    """Files of one cube in version 2, odd in one place, each with its fault."""
    whole = cube()
    yield whole[:40], "short at byte 40"
    yield whole[:329], "short at byte 329"
    yield whole + b"x", "trailing at byte 330"
    for at, others, fault in (
            (7, b"3", "magic at byte 7"), (24, b"\x08", "counts at byte 24"), (49, bytes(20), "plane form at byte 49"),
            (173, b"\x02", "node order at byte 169"), (289, bytes(4), "leaf form at byte 289"), (329, b"\x1f", "row form at byte 329"),
            *((41, struct.pack("<I", bound), "header form at byte 41") for bound in (0, 4095, 5000, 2 ** 31, 2 ** 32 - 1)),
            # what is odd first in the file is its fault, and a number that is not there as a whole is not odd
            (40, b"\x02\x88\x13", "counts at byte 40"), (41, b"\x88\x13\0\0\x01" + bytes(20), "header form at byte 41")):
        yield whole[:at] + others + whole[at + len(others):], fault
    yield whole[:41] + b"\x88\x13\0", "short at byte 44"
    yield whole[:41] + b"\x88\x13\0\0", "header form at byte 41"


def small(count, *sections, bound=4096):
    """A world without brushes that says that it has so many sections, and these: a kind, a length, and bytes."""
    bare = tree_file([], [], [(-1, 0)], [{0}], 2, bound)
    return bare[:45] + struct.pack("<I", count) + bare[49:] + b"".join(struct.pack("<IQ", *head) + data for *head, data in sections)


def odd_sections():
    """Small files with sections, each with its fault, and two that have none."""
    most = 2 ** 64 - 1
    yield small(2, (7, 0, b""), (7, 0, b"")), "section form at byte 67"
    yield small(1, (0, 0, b"")), "section form at byte 55"
    yield small(3, (3, 2, b"ab"), (9, 0, b""), (8, 1, b"c")), "section form at byte 81"
    yield small(2, (2 ** 31, 0, b""), (1, 0, b"")), "section form at byte 67"
    yield small(2, (7, 0, b""), (7, most, b"")), "section form at byte 67"
    # what is promised and is not there
    yield small(2 ** 32 - 1, (1, 33, bytes(33))), "short at byte 100"
    yield small(2 ** 32 - 1, (1, 32, bytes(33))), "short at byte 100"
    yield small(2 ** 32 - 1, (1, 0, b""), (0, 0, bytes(21))), "section form at byte 67"
    yield small(1, (1, most, bytes(33))), "short at byte 100"
    yield small(1, (1, 2 ** 63, bytes(33))), "short at byte 100"
    yield small(1, (1, 34, bytes(33))), "short at byte 100"
    yield small(1, (0, most, bytes(33))), "section form at byte 55"
    yield small(1, (1, 32, bytes(33))), "trailing at byte 99"
    yield small(0, (1, 33, bytes(33))), "trailing at byte 55"
    yield small(1, (1, 33, bytes(33))), "version 2, bound 4096, planes 0, nodes 0, leaves 1, rows 1, sections 1, same true"
    yield (small(2, (2 ** 32 - 2, 0, b""), (2 ** 32 - 1, 33, bytes(33)), bound=32768),
           "version 2, bound 32768, planes 0, nodes 0, leaves 1, rows 1, sections 2, same true")


def altered_files():
    """Files to alter, each with the byte from which on."""
    rng, long_one = random.Random(11), long_tree(4200)
    for version in 1, 2:
        yield 0, cube(version)
        yield 0, tree_file([], [], [(-1, 0)], [{0}], version)
        yield 0, tree_file([], [], [(SOLID, 0)], [], version)
        yield 0, tree_file([], [], [(SOLID, 1)], None, version)
    yield 0, random_tree(rng, 3, True, 1)
    yield 0, random_tree(rng, 9, False, 2, 32768)
    yield 0, random_tree(rng, 24, True)
    yield 0, tree_file([], [], [(-1, 0)], [{0}], 2, 32768, SECTIONS)
    yield 0, random_tree(rng, 5, True, 2, 4096, SECTIONS)
    # what stands in a section is no matter of the file
    yield 0, tree_file([], [], [(-1, 0)], [{0}], 2, 4096, [(1, random_tree(rng, 1, False)), (2, b"")])
    yield len(long_one) - 3, long_one


def listings():
    """Listings of the cube's twelve portals, of none, of one and of two."""
    yield LISTING
    yield b"PRT1\n1\n0\n"
    yield b"PRT1\n2\n1\n3 0 1 (0 0 -32768 ) (-1.000001 0.500000 32768 ) (7.000000 -0.000001 10 ) \n"
    yield (b"PRT1\n12\n2\n4 10 2 (-3488 -64 0 ) (-3488 -64 64 ) (-3488 -32 64 ) (-3488 -32 0 ) \n"
           b"3 0 11 (1 2 3 ) (40 50 60 ) (32767.999999 0 -32768.000000 ) \n")


def main():
    program = os.path.abspath(sys.argv[1])
    odd = [*altered_cubes(), *odd_sections()]
    compared = len(odd)
    for data, due in odd:
        found = said(program, data, len(data))
        if not found == [line(data)] == [due]:
            print(f"{data.hex()}: {found}, the slow reader says {line(data)}, and due is {due}")
            return 1
    made = [*((first, data, "altered.tree", line) for first, data in altered_files()),
            *((0, text, "altered.prt", listed) for text in listings())]
    for first, data, name, meant in made:
        found = said(program, data, first, name)
        wanted = [meant(altered) for altered in alterations(data, first)]
        if found != wanted:
            place = next((i for i, pair in enumerate(zip(found, wanted)) if pair[0] != pair[1]), min(len(found), len(wanted)))
            print(f"{len(data)} bytes, alteration {place}: {found[place:place + 1]}, and the slow reader says {wanted[place:place + 1]}")
            return 1
        compared += len(wanted)
    print(f"{compared} files read alike")
    return 0


if __name__ == "__main__":
    sys.exit(main())
