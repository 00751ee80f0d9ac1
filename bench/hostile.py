#!/usr/bin/env python3
"""Runs the compiler on levels that are made to be dear, and prints what each takes.

    bench/hostile.py PROGRAM [KIND [COUNT..]]

The kinds are `slanted`, slabs through one another at all slants; `upright`, slabs through one another that stand upright; `beams`,
beams across one another along three axes; `rows`, boxes apart from one another; `faces`, one brush of so many faces; `origins`, a
closed room and so many entities in it; `small`, boxes of which so many megabytes are text; `chain`, a tree file of so many leaves
in a chain, of which `inspect` and `upgrade` are timed. Without counts a few stand for them. Levels are compiled with `--fast`, each
run with 4 GiB of address space and a minute of time at most, or with as many as the variables GIBIBYTES and SECONDS say; one that is
cut off by the time is said to be. For each the bytes of the text or file, the status, the seconds of processor time, the peak in
megabytes, and the printed counts stand in a line."""

import math
import os
from pathlib import Path
import resource
import subprocess
import sys
import tempfile

ROOT = Path(__file__).resolve().parent.parent
sys.path.insert(0, str(ROOT / ".ci"))

from made_trees import SOLID, tree_file  # noqa: E402

SPACE, SECONDS = int(os.environ.get("GIBIBYTES", 4)) << 30, int(os.environ.get("SECONDS", 60))
COUNTS = {"slanted": (4, 8, 12, 16, 24), "upright": (16, 32, 64, 128), "beams": (8, 16, 32), "rows": (1000, 4000, 16000),
          "faces": (250, 500, 1000, 2000, 4000), "origins": (10000, 100000, 1000000), "small": (1, 4, 16, 67),
          "chain": (10000, 100000, 1000000)}


def face(points, texture="a"):
    """The line of a face through three points."""
    return " ".join(f"( {x} {y} {z} )" for x, y, z in points) + f" {texture} 0 0 0 1 1\n"


def box(low, high):
    """A brush from one corner to the other."""
    (a, b, c), (d, e, f) = low, high
    return "{\n" + "".join(map(face, (
        ((a, 0, 0), (a, 1, 0), (a, 0, 1)), ((d, 0, 0), (d, 0, 1), (d, 1, 0)), ((0, b, 0), (0, b, 1), (1, b, 0)),
        ((0, e, 0), (1, e, 0), (0, e, 1)), ((0, 0, c), (1, 0, c), (0, 1, c)), ((0, 0, f), (0, 1, f), (1, 0, f))))) + "}\n"


def across(direction):
    """Two directions across a direction and each other, of length 1."""
    x, y, z = direction
    one = (0, -z, y) if abs(x) < 0.6 else (z, 0, -x)
    size = math.sqrt(sum(part * part for part in one))
    one = tuple(part / size for part in one)
    return one, (y * one[2] - z * one[1], z * one[0] - x * one[2], x * one[1] - y * one[0])


def outward(direction, distance):
    """Three whole points near the plane across a direction, going round so that the direction points out of the brush."""
    one, other = across(direction)
    middle = [distance * part for part in direction]
    points = [tuple(round(m + 300 * (s * p + t * q)) for m, p, q in zip(middle, one, other)) for s, t in ((1, 0), (0, 0), (0, 1))]
    return points


def spread(count):
    """Directions all round."""
    for place in range(count):
        z, turn = 1 - (2 * place + 1) / count, place * math.pi * (3 - math.sqrt(5))
        wide = math.sqrt(1 - z * z)
        yield wide * math.cos(turn), wide * math.sin(turn), z


def slab(direction):
    """A thin brush across a direction, through the middle, nearly as wide as the world."""
    one, other = across(direction)
    sides = [(direction, 8), (tuple(-part for part in direction), 8)]
    sides += [(tuple(sign * part for part in way), 3000) for way in (one, other) for sign in (1, -1)]
    return "{\n" + "".join(face(outward(*side)) for side in sides) + "}\n"


def grid(count, step, size):
    """The low corners of so many boxes, apart from one another."""
    side = math.ceil(round(count ** (1 / 3), 6))
    step = min(step, 8000 // side)
    for place in range(count):
        yield tuple(-4000 + step * part for part in (place % side, place // side % side, place // side // side)), min(size, step // 2)


def boxes(count):
    return "".join(box(low, tuple(part + size for part in low)) for low, size in grid(count, 128, 64))


def brushes(kind, count):
    """The text of the world's brushes."""
    if kind == "slanted":
        return "".join(map(slab, spread(count)))
    if kind == "upright":
        return "".join(slab((math.cos(math.pi * turn / count), math.sin(math.pi * turn / count), 0)) for turn in range(count))
    if kind == "beams":
        places = [-4000 + 8000 // count * place for place in range(count)]
        thick = 8000 // count // 4
        return "".join(box(*(tuple(far if at == along else near for at in range(3)) for near, far in ((place, -4000), (place + thick, 4000))))
                       for along in range(3) for place in places)
    if kind == "faces":
        return "{\n" + "".join(face(outward(direction, 3000)) for direction in spread(count)) + "}\n"
    if kind == "origins":
        walls = [(low, high) for at in range(3) for low, high in (
            (tuple(-80 for _ in range(3)), tuple(-64 if part == at else 80 for part in range(3))),
            (tuple(64 if part == at else -80 for part in range(3)), tuple(80 for _ in range(3))))]
        return "".join(box(*wall) for wall in walls)
    if kind == "rows":
        return boxes(count)
    return boxes(int(count * 1_000_000 / len(boxes(1000)) * 1000))


def level(kind, count):
    """The text of a level."""
    entities = count if kind == "origins" else 0
    return "{\n" + brushes(kind, count) + "}\n" + "".join(f'{{ "origin" "{place % 60 - 30} {place // 60 % 60 - 30}.5 0" }}\n' for place in range(entities))


def chain(count):
    """A tree file of so many leaves in a chain, each second one solid."""
    nodes = [(0, -1 - k, k + 1 if k + 2 < count else -2 - k) for k in range(count - 1)]
    return tree_file([(1, 0, 0, 0)], nodes, [(SOLID if k % 2 else -1, 0) for k in range(count)], None, 1)


def limited():
    resource.setrlimit(resource.RLIMIT_AS, (SPACE, SPACE))
    resource.setrlimit(resource.RLIMIT_CPU, (SECONDS, SECONDS))


def timed(words, folder):
    """How a run ended, what it printed, its seconds and its peak."""
    with open(Path(folder, "printed"), "w+b") as printed:
        child = subprocess.Popen(words, cwd=folder, stdout=printed, preexec_fn=limited)
        _, status, usage = os.wait4(child.pid, 0)
        child.returncode = os.waitstatus_to_exitcode(status)
        printed.seek(0)
        return child.returncode, printed.read().decode(), usage.ru_utime + usage.ru_stime, usage.ru_maxrss / 1024


def tell(name, count, size, ran):
    status, text, seconds, peak = ran
    ends = "cut off" if status < 0 else status
    print(f"{name:9} {count:>8} {size:>10} {ends:>8} {seconds:>8.2f} {peak:>8.1f}  {' '.join(text.split())}", flush=True)
    return status in (0, 3, 7) or status < 0 and seconds > SECONDS - 2


def run_all(program, kinds, folder):
    good = True
    for kind, counts in kinds:
        for count in counts:
            name = Path(folder, "chain.tree" if kind == "chain" else "level.map")
            if kind == "chain":
                name.write_bytes(chain(count))
                good &= tell("inspect", count, name.stat().st_size, timed([program, "inspect", name, "count", "at=-1,0,0", "at=1,0,0"], folder))
                good &= tell("upgrade", count, name.stat().st_size, timed([program, "upgrade", name, "out.tree"], folder))
            else:
                name.write_text(level(kind, count), encoding="ascii")
                good &= tell(kind, count, name.stat().st_size, timed([program, "compile", name, "out.tree", "--fast"], folder))
    return good


def main(program, *words):
    kinds = [(words[0], tuple(map(int, words[1:])) or COUNTS[words[0]])] if words else COUNTS.items()
    with tempfile.TemporaryDirectory() as folder:
        print(f"{'kind':9} {'count':>8} {'bytes':>10} {'status':>8} {'seconds':>8} {'MB':>8}  printed")
        return 0 if run_all(os.path.abspath(program), kinds, folder) else 1


if __name__ == "__main__":
    if len(sys.argv) < 2 or len(sys.argv) > 2 and sys.argv[2] not in COUNTS:
        sys.exit(__doc__)
    sys.exit(main(*sys.argv[1:]))
