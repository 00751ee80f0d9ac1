#!/usr/bin/env python3
"""Times trees whose halves are built beside one another: `bench/halves.py MAP..`, once `bench/compile.sh` has built what it
times. It prints for each map the milliseconds by the clock, by the medians of RUNS runs in turn, from the brushes to the tree:
cell by cell on one processor, the others at rest; the same while each other processor does the same; and in halves on two
processors and four. Then what four take in parts of one of both kinds, by the median of the runs' own ratios and by the best
runs: where processors share what they reckon with, one does more while the others rest than any of four does. And both peaks
of memory in megabytes."""

import os
import sys
from statistics import median
from typing import NamedTuple

from runs import RUNS, Cost, clock_beside, cost_of

PROGRAM = os.path.join(os.path.dirname(__file__), "../crates/compile_bench/out/compile_bench")
PROCESSORS = 4
HEADS = ("one alone", "one of 4", "halves, 2", "halves, 4", "of alone", "least", "of one of 4", "least", "memory", "halves'")


class Round(NamedTuple):
    """What was measured in turn: up to the brushes and up to the tree, by one processor alone, by one of four, and in halves."""

    brushes: Cost
    cells: Cost
    brushes_beside: float
    cells_beside: float
    two: Cost
    four: Cost

    def alone(self):
        """Seconds from the brushes to the tree, of one processor while the others rest."""
        return self.cells.clock - self.brushes.clock

    def beside(self):
        """The same, of one of four."""
        return self.cells_beside - self.brushes_beside

    def in_halves(self, cost):
        """The same, in halves."""
        return cost.clock - self.brushes.clock


def command(processors, phase, name):
    return ("taskset", "-c", processors, PROGRAM, phase, name)


def beside(phase, name):
    """The seconds of a phase on each processor at once."""
    return clock_beside([command(str(processor), phase, name) for processor in range(PROCESSORS)])


def measured(name):
    """One round for a map."""
    return Round(
        cost_of(command("0", "brushes", name)),
        cost_of(command("0", "build", name)),
        beside("brushes", name),
        beside("build", name),
        cost_of(command("0-1", "halves", name)),
        cost_of(command("0-3", "halves", name)),
    )


def over(of, figures):
    """The median or the least of each figure of some rounds."""
    return Round(*(Cost(*map(of, zip(*figure))) if isinstance(figure[0], Cost) else of(figure) for figure in zip(*figures)))


def row(name):
    """The figures of a map, in the order of the heads."""
    rounds = [measured(name) for _ in range(RUNS)]
    middle, least = over(median, rounds), over(min, rounds)
    took = (middle.alone(), middle.beside(), middle.in_halves(middle.two), middle.in_halves(middle.four))
    of_alone = [one.in_halves(one.four) / one.alone() for one in (*rounds, least)]
    of_four = [one.in_halves(one.four) / one.beside() for one in (*rounds, least)]
    ratios = (median(of_alone[:-1]), of_alone[-1], median(of_four[:-1]), of_four[-1])
    return (*(1000 * seconds for seconds in took), *ratios, least.cells.memory, least.four.memory)


def main(*maps):
    print(f"{'':<28}" + "".join(f"{head:>12}" for head in HEADS))
    for name in maps:
        label = os.path.basename(name).removesuffix(".map")
        print(f"{label:<28}" + "".join(f"{figure:>12.2f}" for figure in row(name)), flush=True)


main(*sys.argv[1:])
