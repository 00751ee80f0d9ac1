"""Kills runs of the program, each at another moment.

Usage: kill_runs.py PROGRAM MAP [MOMENTS]

`compile MAP OUT --prt FILE --fast` is killed at so many moments of its time, 100 where that is not named, half of which lie where
it writes. Each of OUT and FILE has to be as it was, or to have the first bytes of what is due in it, FILE only where OUT is whole.
The last line counts what became of them.
"""

import os
from pathlib import Path
import subprocess
import sys
import tempfile
import time

OLD = b"what was there before"
NAMES = ("out.tree", "out.prt")


def begin(words, folder):
    """A run, behind outputs as they were."""
    for name in NAMES:
        Path(folder, name).write_bytes(OLD)
    return subprocess.Popen(words, cwd=folder, stdout=subprocess.DEVNULL)


def state(file, due):
    """What became of a file."""
    if file == OLD:
        return "as it was"
    if file == due:
        return "whole"
    return "a part" if due.startswith(file) else "wrong"


def files(folder):
    """What the outputs have."""
    return [Path(folder, name).read_bytes() for name in NAMES]


def writing_begins(words, folder):
    """How long a run takes to its first byte, and as a whole."""
    start, run = time.monotonic(), begin(words, folder)
    out, first = Path(folder, NAMES[0]), None
    while run.poll() is None:
        if first is None and out.stat().st_size != len(OLD):
            first = time.monotonic() - start
        time.sleep(0.0002)
    return first or time.monotonic() - start, time.monotonic() - start, run.returncode


def main(program, level, moments=100):
    moments, counts = int(moments), {}
    with tempfile.TemporaryDirectory() as folder:
        words = [os.path.abspath(program), "compile", os.path.abspath(level), NAMES[0], "--prt", NAMES[1], "--fast"]
        first, whole, status = writing_begins(words, folder)
        due = files(folder)
        if status:
            sys.exit(f"the program ended with {status} where it was not killed")
        for moment in range(moments):
            part = (moment // 2 + 1) / (moments // 2)
            run = begin(words, folder)
            time.sleep(whole * part if moment % 2 else max(0, first * 0.97 + (whole - first * 0.97) * part))
            run.kill()
            run.wait()
            found = [state(*pair) for pair in zip(files(folder), due)]
            if "wrong" in found or found[1] != "as it was" and found[0] != "whole":
                sys.exit(f"killed at moment {moment}: OUT is {found[0]}, FILE is {found[1]}")
            counts[", ".join(found)] = counts.get(", ".join(found), 0) + 1
    print(f"{moments} runs killed; OUT and FILE:", *(f"{found} ({count})" for found, count in sorted(counts.items())))
    return 0


if __name__ == "__main__":
    if len(sys.argv) not in (3, 4):
        sys.exit(__doc__)
    sys.exit(main(*sys.argv[1:]))
