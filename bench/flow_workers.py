"""Called by flow.sh: what `compile` takes on each of some maps with --fast, and with one worker, two and four."""

import os
import sys

from runs import least_costs

WORKERS = (1, 2, 4)
HEADS = ("clock", "processor", "memory", "ratio", "ratio", "ratio")


def ratios(cost, one, fast):
    """Times less those with --fast, and the peak of memory, in parts of those of one worker."""
    clock = (cost.clock - fast.clock) / (one.clock - fast.clock)
    processor = (cost.processor - fast.processor) / (one.processor - fast.processor)
    return clock, processor, cost.memory / one.memory


def line(label, figures):
    return f"    {label:<12}" + "".join(f"{figure:>11.3f}" for figure in figures)


def main(program, out, *maps):
    print(f"{'':<16}" + "".join(f"{head:>11}" for head in HEADS))
    for name in maps:
        words = (program, "compile", name, out)
        fast = (*words, "--fast")
        by = {workers: (*words, "--threads", str(workers)) for workers in WORKERS}
        least = least_costs([fast, *by.values()])
        if least is None:
            sys.exit(f"{name} leaks")
        if None in least.values():
            sys.exit(f"{name} takes too long: LIMIT, in seconds, can be set")
        print(os.path.basename(name).removesuffix(".map"))
        print(line("--fast", least[fast]))
        for workers in WORKERS:
            cost = least[by[workers]]
            print(line(f"{workers} at work", (*cost, *ratios(cost, least[by[1]], least[fast]))), flush=True)


main(*sys.argv[1:])
