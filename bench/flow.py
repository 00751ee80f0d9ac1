"""Called by flow.sh: the processor time of the flow alone on each map of a folder, beside another program where one is named."""

import os
import sys

from runs import least_costs


def flow(least, fast, whole):
    """The seconds of the flow alone, where both runs ended."""
    if least[fast] is None or least[whole] is None:
        return None
    return least[whole].processor - least[fast].processor


def main(program, out, maps, *peers):
    programs = [program, *peers]
    print(f"{'map':<28}" + "".join(f"{head:>10}" for head in ["flow", "peer", "ratio"][: 2 * len(programs) - 1]))
    for name in sorted(os.listdir(maps)):
        if not name.endswith(".map"):
            continue
        words = ["compile", os.path.join(maps, name), out]
        pairs = [((program, *words, "--fast"), (program, *words)) for program in programs]
        least = least_costs([command for pair in pairs for command in pair])
        if least is None:
            continue
        row = [flow(least, *pair) for pair in pairs]
        if len(row) == 2:
            row.append(row[0] / row[1] if None not in row and row[1] > 0 else None)
        figures = ("-" if value is None else f"{value:.3f}" for value in row)
        print(f"{name.removesuffix('.map'):<28}" + "".join(f"{figure:>10}" for figure in figures), flush=True)


main(*sys.argv[1:])
