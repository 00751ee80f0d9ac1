#!/usr/bin/env bash
# Times the flow, and takes of each figure the least of RUNS runs in turn, three where RUNS is not set.
#
# `bench/flow.sh FOLDER [PEER]` prints for each map of a folder that does not leak the seconds of processor time of `compile`
# without `--fast`, less those with it. A run ends after LIMIT seconds by the clock, 120 where it is not set; then `-` stands for
# its time, and it is not tried again. PEER is another program that takes the same words; beside it stands the ratio.
#
# `bench/flow.sh MAP..` prints for each of these maps, which do not leak, what `compile` takes with `--fast` and with one worker,
# two and four: seconds by the clock, seconds of processor time, and the peak of memory in megabytes. Then come their ratios to
# those of one worker: of both times less those with `--fast`, and of the whole peak. PROGRAM is the program, where it is set; else
# it is the one that `./qmapc` runs. Nothing else should run on the machine.
set -euo pipefail
usage='usage: bench/flow.sh FOLDER [PEER] | MAP..'
first=$(realpath -- "${1:?$usage}")
names=("$first")
for name in "${@:2}"; do
    if [[ -d $first ]]; then names+=("$name"); else names+=("$(realpath -- "$name")"); fi
done
cd "$(dirname "${BASH_SOURCE[0]}")/.."
folder=$(mktemp -d)
trap 'rm -rf "$folder"' EXIT

PROGRAM=${PROGRAM:-$(bash .ci/program)}
export RUNS=${RUNS:-3} LIMIT=${LIMIT:-120}
if [[ -d $first ]]; then
    python3 bench/flow.py "$PROGRAM" "$folder/out.tree" "${names[@]}"
else
    python3 bench/flow_workers.py "$PROGRAM" "$folder/out.tree" "${names[@]}"
fi
