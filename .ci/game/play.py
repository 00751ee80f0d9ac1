#!/usr/bin/env python3
"""Plays levels in real engines, and holds what happens there to the tree files. Called by .ci/play.sh, which has the display.

    .ci/game/play.py [--quake FOLDER] [--pictures FOLDER] [--program PROGRAM] [MAP | FOLDER]..

Without a MAP those of the samples are played that have a place for a player. In each engine that is installed a player walks by
itself through each level; each place where it was is looked up in the tree file and in the hull, and the engine is asked what it
finds there. Then pairs of pictures are taken from places by chance, with and without the level's visibility. As a control, a level
without visibility worth its name is looked at too: there pictures have to differ. In Nexuiz bots play.

Prints a table, and ends with 1 where a place is wrong or pictures differ by more than a few pixels."""

import argparse
from pathlib import Path
import random
import re
import shutil
import subprocess
import sys
import tempfile

TOP = Path(__file__).resolve().parent.parent.parent
sys.path[:0] = [str(TOP / ".ci"), str(TOP / "tools")]

import bsp_reader
import engines
import nexuiz
import treefile
import views
import walked

# pixels that may differ of a picture: where two surfaces meet, rounding may fall either way
FEW = 10
# textures that engines do not draw, behind the points of a face
UNDRAWN = re.compile(rb"(?i)(\) \S*\b(?:caulk|skip|hint)) ")
SAMPLES = "room rooms rooms8 courtyard courtyard_leak gatehouse".split()
HEAD = "| Engine | Level | Form | Places | Leaves | In liquids | In solid | In solid of hull 1 | Other contents | Pairs | Most pixels that differ |"


class Stopped(Exception):
    """Why nothing is played."""


def words_of(words):
    """The words of the command line, or the usage line and status 2."""
    parser = argparse.ArgumentParser(prog="play.sh", description="Plays levels in the engines that are installed.")
    parser.add_argument("maps", metavar="MAP", nargs="*", help="a map, or a folder of maps; without any, those of the samples")
    parser.add_argument("--quake", metavar="FOLDER", help="the folder whose id1 has a game's data, for QuakeSpasm")
    parser.add_argument("--pictures", metavar="FOLDER", help="where pictures are kept")
    parser.add_argument("--program", metavar="PROGRAM", default=str(TOP / "qmapc"), help="what compiles; the launcher otherwise")
    parser.add_argument("--only", metavar="ENGINE", help="one engine alone")
    return parser.parse_args(words)


def maps_of(names):
    """The maps that are asked for."""
    if not names:
        return [TOP / "samples" / f"{name}.map" for name in SAMPLES if (TOP / "samples" / f"{name}.map").exists()]
    found = []
    for name in map(Path, names):
        found += sorted(name.glob("*.map")) if name.is_dir() else [name]
    return found


def call(*words):
    """Runs a command: its status, and what it said."""
    done = subprocess.run(list(map(str, words)), stdout=subprocess.PIPE, stderr=subprocess.STDOUT, text=True)
    return done.returncode, done.stdout.strip()


def show_all(name):
    """Gives other names to textures of a map that engines do not draw: a face that is there and not drawn is looked through, at what
    is rightly hidden."""
    name.write_bytes(UNDRAWN.sub(rb"\1shown ", name.read_bytes()))


def made(name, program, folder):
    """The level of a map and its tree file, by the tools as a designer uses them."""
    merged, bevelled, tree, level = (folder / f"{name.stem}{ending}" for ending in ("-world.map", "-bevels.map", ".tree", ".bsp"))
    plain = folder / name.name
    shutil.copy(name, plain)
    plain.chmod(0o644)
    show_all(plain)
    for words, allowed in (((TOP / "tools" / "qmlook", "world", plain, "--out", merged), (0,)),
                           ((TOP / "tools" / "qmlook", "bevels", merged, "--out", bevelled), (0,)),
                           ((program, "compile", bevelled, tree, "--fast"), (0, 3)),
                           ((TOP / "tools" / "qmbsp", bevelled, tree, level), (0,))):
        status, said = call(*words)
        if status not in allowed:
            raise Stopped(f"{name}: {Path(words[0]).name} ended with {status}: {said}")
    return level, bsp_reader.load(level), treefile.load(tree)


def keep(pairs, engine, level_name, folder):
    """Keeps the pictures of pairs in a folder."""
    if folder:
        Path(folder).mkdir(parents=True, exist_ok=True)
        for at, pair in enumerate(pairs):
            for kind, picture in (("seen", pair.shown), ("whole", pair.whole)):
                shutil.copy(picture, Path(folder) / f"{engine.name}-{level_name.stem}-{at}-{kind}.tga")


def row(engine, level_name, level, walk, pairs):
    """A row of the table."""
    form = "BSP2" if level.is_wide else "BSP29"
    numbers = [len(walk.places), walk.leaves, walk.in_liquid, len(walk.in_solid), len(walk.in_hull), "" if engine.name == "Nexuiz" else len(walk.other)]
    numbers += [len(pairs), max(pair.differ for pair in pairs)] if pairs else ["", ""]
    return f"| {engine.name} | {level_name.stem} | {form} | " + " | ".join(map(str, numbers)) + " |"


def is_wrong(walk, pairs):
    """Whether something is not as it should be. A player who is set on a spot can stand in solid there for a moment, where the spot
    itself does."""
    return bool(walk.in_solid or walk.other or not walk.places or any(pair.differ > FEW for pair in pairs))


def tried(engine, made_level, rng, pictures):
    """What happens in an engine: its row of the table, and whether something is wrong."""
    level_name, level, tree = made_level
    if engine.name == "Nexuiz":
        walk, printed = nexuiz.play(engine, level_name, level, tree)
        pairs = []
        if pictures:
            Path(pictures).mkdir(parents=True, exist_ok=True)
            for at, picture in enumerate(engine.pictures()):
                shutil.copy(picture, Path(pictures) / f"Nexuiz-{level_name.stem}-{at}.tga")
    else:
        walk, printed = walked.walk(engine, level_name, level, tree, rng)
        pairs, other = views.look(engine, level_name, level, rng) if walk.places else ([], "")
        printed += other
        keep(pairs, engine, level_name, pictures)
    for line in sorted(set(re.findall(r"(?im)^.*\b(?:warning|error|bad|missing|corrupt)\b.*$", printed))):
        print(f"{engine.name}, {level_name.stem}: {line.strip()}", file=sys.stderr)
    for place in walk.in_solid[:3] + walk.in_hull[:3] + walk.other[:3]:
        print(f"{engine.name}, {level_name.stem}: at {place}", file=sys.stderr)
    return row(engine, level_name, level, walk, pairs), is_wrong(walk, pairs)


def control(engine, made_level, rng):
    """Whether pictures differ where rows are cut down to their own leaves, as they have to."""
    level_name, level, _ = made_level
    blind = level_name.with_name("blind.bsp")
    data, at = bytearray(level_name.read_bytes()), level.places["visibility"][0]
    data[at:at + len(level.visibility)] = bytes([1]) * len(level.visibility)
    blind.write_bytes(data)
    pairs, _ = views.look(engine, blind, level, rng, 4)
    return max(pair.differ for pair in pairs) > FEW


def main():
    words, is_good = words_of(sys.argv[1:]), True
    with tempfile.TemporaryDirectory() as name:
        folder = Path(name)
        found, missing = engines.installed(folder, words.quake)
        for line in missing:
            print(line, file=sys.stderr)
        found = [engine for engine in found if words.only in (None, engine.name)]
        print(HEAD + "\n|" + " --- |" * 11)
        for at, map_name in enumerate(maps_of(words.maps)):
            try:
                level = made(map_name, words.program, folder)
            except Stopped as why:
                print(why, file=sys.stderr)
                is_good = False
                continue
            for engine in found:
                try:
                    line, wrong = tried(engine, level, random.Random(at), words.pictures)
                except engines.Failed as why:
                    line, wrong = f"| {engine.name} | {map_name.stem} | {why} |" + " |" * 8, True
                print(line, flush=True)
                is_good = is_good and not wrong
            if map_name.stem == "courtyard" and found and not control(found[0], level, random.Random(1)):
                print(f"{found[0].name}: pictures do not differ where next to nothing is to be seen", file=sys.stderr)
                is_good = False
    sys.exit(0 if is_good else 1)


if __name__ == "__main__":
    main()
