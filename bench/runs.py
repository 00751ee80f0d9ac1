"""Runs of a program that are measured, for the scripts that time."""

import os
import shutil
import sys
import time
from typing import NamedTuple

DONE, LEAK, PAST_LIMIT = 0, 3, 124
TIMEOUT = shutil.which("timeout") or sys.exit("the command `timeout` is not on the PATH")
RUNS, LIMIT = int(os.environ.get("RUNS", "3")), os.environ.get("LIMIT", "120")


class Cost(NamedTuple):
    """What a run took: seconds by the clock, seconds of processor time, and megabytes of memory at its peak."""

    clock: float
    processor: float
    memory: float


def least_of_all(costs):
    """The least of each figure of some costs."""
    return Cost(*(min(figures) for figures in zip(*costs)))


def begin(words):
    """The number of the process of a run that has begun."""
    child = os.fork()
    if child == 0:
        os.dup2(os.open(os.devnull, os.O_WRONLY), 1)
        os.execv(TIMEOUT, [TIMEOUT, LIMIT, *words])
    return child


def run(words):
    """How a run ended, and what it took. Its peak is at least that of this script, which is 10 megabytes or so."""
    begun = time.monotonic()
    _, status, usage = os.wait4(begin(words), 0)
    cost = Cost(time.monotonic() - begun, usage.ru_utime + usage.ru_stime, usage.ru_maxrss / 1024)
    return os.waitstatus_to_exitcode(status), cost


def cost_of(command):
    """What a run took that has to end with 0."""
    ended, cost = run(command)
    if ended != DONE:
        sys.exit(f"{' '.join(command)} failed")
    return cost


def clock_beside(commands):
    """Seconds by the clock from the beginning of some runs, which all begin at once and have to end with 0, to their ends: the
    mean."""
    begun = time.monotonic()
    for command in commands:
        begin(command)
    clocks = []
    for command in commands:
        _, status = os.wait()
        if os.waitstatus_to_exitcode(status) != DONE:
            sys.exit(f"{' '.join(command)} failed")
        clocks.append(time.monotonic() - begun)
    return sum(clocks) / len(clocks)


def least_costs(commands):
    """The least cost of each command, of some runs in turn; None where a run took too long, and None for all where a map leaks."""
    least = {}
    for _ in range(RUNS):
        for command in commands:
            if command in least and least[command] is None:
                continue
            ended, cost = run(command)
            if ended == LEAK:
                return None
            if ended not in (DONE, PAST_LIMIT):
                sys.exit(f"{' '.join(command)} failed")
            least[command] = None if ended == PAST_LIMIT else least_of_all((least.get(command, cost), cost))
    return least
