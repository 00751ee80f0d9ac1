#!/usr/bin/env python3
"""Times what the launcher adds to a call: `bench/launcher.py [CALLS]`. It calls `./qmapc` and the program that this runs, which
prints its usage line, in turn, 200 times each if CALLS is not given; and prints the milliseconds of a call by the clock and of
processor time, the middle one of each, and how much more the launcher takes. Then the same of a launcher that has kept nothing,
as in a fresh clone. Nothing else should run on the machine."""

import os
from pathlib import Path
import statistics
import subprocess
import sys
import time

TOP = Path(__file__).resolve().parent.parent
KEPT = TOP / "crates/qmapc/out/chosen"


def measure(program):
    """The milliseconds of a call, by the clock and of processor time."""
    begun = time.perf_counter()
    child = os.fork()
    if child == 0:
        os.dup2(os.open(os.devnull, os.O_WRONLY), 1)
        os.execv(program, [program])
    _, status, usage = os.wait4(child, 0)
    if os.waitstatus_to_exitcode(status) != 2:
        sys.exit(f"{program} failed")
    return 1000 * (time.perf_counter() - begun), 1000 * (usage.ru_utime + usage.ru_stime)


def middle(runs):
    """The middle one of each of the two times."""
    return [statistics.median(times) for times in zip(*runs)]


def measure_anew(program):
    """The same where nothing is kept of the calls before."""
    KEPT.unlink(missing_ok=True)
    return measure(program)


def main():
    calls = int(sys.argv[1]) if len(sys.argv) > 1 else 200
    launcher = str(TOP / "qmapc")
    program = subprocess.run(["bash", TOP / ".ci/program"], stdout=subprocess.PIPE, text=True, check=True).stdout.strip()
    # what was chosen is kept once each file is two seconds old
    time.sleep(3)
    measure(launcher)
    if not KEPT.exists():
        sys.exit(f"the launcher keeps nothing in {KEPT}")
    runs = [(measure(launcher), measure(program)) for _ in range(calls)]
    first = middle([measure_anew(launcher) for _ in range(max(1, calls // 10))])
    whole, alone = (middle(times) for times in zip(*runs))
    print(f"{'milliseconds':<28}{'by the clock':>14}{'processor':>14}")
    for name, times in (("./qmapc", whole), ("the program alone", alone)):
        print(f"{name:<28}" + "".join(f"{taken:>14.1f}" for taken in times))
    for name, times in (("the launcher", whole), ("the launcher, anew", first)):
        print(f"{name:<28}" + "".join(f"{taken - less:>14.1f}" for taken, less in zip(times, alone)))


main()
