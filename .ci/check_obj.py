#!/usr/bin/env python3
"""Holds a Wavefront OBJ of `tools/qmlook obj` to the tree file and the map from which it was made.

    .ci/check_obj.py OBJ TREE MAP

A plain reader takes it apart. It has a group for each texture, each with just the pieces whose faces have this texture in the map: with
corners to the nearest millionth, the other way round than in the file, so against the clock as seen from the level, which is on the front
of each face. If the program `assimp` is installed it loads the OBJ too, and has to find as many groups, with their names, as many
triangles in each, and the same farthest places."""

from fractions import Fraction
from pathlib import Path
import re
import shutil
import subprocess
import sys

sys.path.insert(0, str(Path(__file__).resolve().parent.parent / "tools"))

import map_reader
import treefile


def read(text):
    """The faces of each group of an OBJ, each the places of its corners. What is no such line is a fault."""
    places, groups, group = [], {}, None
    for line in text.splitlines():
        word, *rest = line.split(" ")
        if word == "v" and len(rest) == 3:
            places.append(tuple(map(Fraction, rest)))
        elif word == "g" and len(rest) == 1 and rest[0] not in groups:
            group = groups.setdefault(rest[0], [])
        elif word == "f" and len(rest) > 2:
            group.append([places[int(number) - 1] if int(number) > 0 else None for number in rest])
        elif word != "#" and (word != "usemtl" or rest != [list(groups)[-1]]):
            sys.exit(f"a line of the OBJ is none: {line}")
    return groups


def due(tree, brushes):
    """The same by the tree and the map."""
    found, names = {}, {}
    for piece in tree.faces():
        texture = brushes[piece.brush].faces[piece.face].texture
        places = [tuple(Fraction(round(part * 1000000), 1000000) for part in tree.corner(corner)) for corner in piece.corners]
        found.setdefault(names.setdefault(texture.lower(), texture), []).append(places[::-1])
    return {re.sub("[^!-~]|[%#\\\\]", lambda letter: f"%{ord(letter[0]):02X}", name): faces for name, faces in found.items()}


def is_in_the_open(tree, places):
    """Whether what is a little before a face, on the side from which it goes round against the clock, is not solid, and what is behind it
    is."""
    a, b, c = places[:3]
    one, other = ([y - x for x, y in zip(a, end)] for end in (b, c))
    way = (one[1] * other[2] - one[2] * other[1], one[2] * other[0] - one[0] * other[2], one[0] * other[1] - one[1] * other[0])
    longest = max(map(abs, way))
    middle = [sum(parts) / len(places) for parts in zip(*places)]
    before, behind = (tree.is_solid_at([at + side * part / longest / 1024 for at, part in zip(middle, way)]) for side in (1, -1))
    return behind and not before


def faults_of_program(name, groups):
    """What is wrong with what assimp finds in the OBJ."""
    ran = subprocess.run(["assimp", "info", name], capture_output=True, text=True, check=False)
    meshes = {mesh: int(faces) for mesh, faces in re.findall(r"^ +\d+ \((.*)\): \[\d+ / \d+ / (\d+) \| triangle\]$", ran.stdout, re.M)}
    wanted = {group: sum(len(face) - 2 for face in faces) for group, faces in groups.items()}
    if ran.returncode or meshes != wanted:
        yield f"assimp ends with {ran.returncode} and finds {meshes}, and there are {wanted}: {ran.stderr}"
    for word, end in ("Minimum", min), ("Maximum", max):
        told = re.search(rf"^{word} point +\((.*)\)$", ran.stdout, re.M)
        places = [place for faces in groups.values() for face in faces for place in face]
        if not told or any(abs(float(one) - end(place[axis] for place in places)) > 0.01 for axis, one in enumerate(told[1].split())):
            yield f"assimp finds another {word.lower()} point: {told and told[1]}"


def main():
    name, tree = sys.argv[1], treefile.load(sys.argv[2])
    groups = read(Path(name).read_text(encoding="ascii"))
    brushes = [brush for brush in map_reader.load(sys.argv[3])[0].brushes if brush.contents != "clip"]
    wanted, faults = due(tree, brushes), []
    if groups != wanted or list(groups) != list(wanted):
        faults.append(f"the OBJ has the groups {[(group, len(faces)) for group, faces in groups.items()]}, "
                      f"and due are {[(group, len(faces)) for group, faces in wanted.items()]}")
    if not all(is_in_the_open(tree, face) for faces in groups.values() for face in faces):
        faults.append("a face of the OBJ has its front in rock")
    if shutil.which("assimp"):
        faults += faults_of_program(name, groups)
    else:
        print("assimp is not installed: the OBJ was read by the check's own reader alone")
    sys.exit("\n".join(faults) or 0)


main()
