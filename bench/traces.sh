#!/usr/bin/env bash
# Times traces through the tree files that are named, by crates/trace_bench: how many microseconds of processor time a trace takes,
# at the best of three runs, and how many spans it has.
#
#     bench/traces.sh [-n SEGMENTS] REACH TREE..
#
# A million segments are traced without `-n`, between points that lie at most REACH map units from the middle across each axis.
set -euo pipefail
segments=1000000
if [[ ${1:-} == -n ]]; then
    segments=$2
    shift 2
fi
if (($# < 2)); then
    echo "usage: bench/traces.sh [-n SEGMENTS] REACH TREE.." >&2
    exit 2
fi
reach=$1
shift
trees=()
for tree in "$@"; do
    trees+=("$(realpath "$tree")")
done
cd "$(dirname "${BASH_SOURCE[0]}")/.."
folder=$(mktemp -d)
trap 'rm -rf "$folder"' EXIT

(cd crates/trace_bench && rt run) >"$folder/log" 2>&1 || {
    cat "$folder/log" >&2
    exit 1
}
cp crates/trace_bench/out/trace_bench "$folder/proved"

seconds() { # seconds TREE SEGMENTS: the least processor time of three runs
    local least="" time
    for _ in 1 2 3; do
        time=$({ TIMEFORMAT=%U && time "$folder/proved" "$(basename "$1")" "$2" "$reach" >"$folder/counts"; } 2>&1)
        if [[ -z $least ]] || awk "BEGIN { exit !($time < $least) }"; then
            least=$time
        fi
    done
    echo "$least"
}

for tree in "${trees[@]}"; do
    cd "$(dirname "$tree")"
    alone=$(seconds "$tree" 0)
    time=$(seconds "$tree" "$segments")
    awk -v alone="$alone" -v time="$time" -v name="$(basename "$tree")" -F '[ ,]+' \
        '{ printf "%-24s nodes %6d  microseconds a trace %6.2f  spans a trace %5.2f\n", name, $2, (time - alone) / $4 * 1000000, $6 / $4 }' "$folder/counts"
done
