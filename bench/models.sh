#!/usr/bin/env bash
# Times brush models: `compile --fast` of levels of N rooms with N doors (`made_doors.py`), with --models and without it, and prints
# what a door takes: processor time, at the best of three runs, and bytes of the tree file.
#
#     bench/models.sh [-p PROGRAM] [N..]
#
# Without numbers N is 250 and 1000; without -p it times what the launcher runs.
set -euo pipefail
top=$(cd -P -- "$(dirname -- "${BASH_SOURCE[0]}")/.." && pwd)
program=
if [[ ${1:-} == -p && $# -gt 1 ]]; then
    program=$(realpath "$2")
    shift 2
fi
for rooms in "$@"; do
    if [[ ! $rooms =~ ^[1-9][0-9]*$ ]]; then
        echo "usage: bench/models.sh [-p PROGRAM] [N..]" >&2
        exit 2
    fi
done
[[ $program ]] || program=$(bash "$top/.ci/program")
(($# > 0)) || set -- 250 1000
folder=$(mktemp -d)
trap 'rm -rf "$folder"' EXIT

seconds() { # seconds WORD..: the least processor time of three runs
    local least="" time
    for _ in 1 2 3; do
        time=$({ TIMEFORMAT='%U %S' && time "$program" compile "$@" --fast >"$folder/printed"; } 2>&1)
        time=$(awk '{ print $1 + $2 }' <<<"$time")
        if [[ -z $least ]] || awk "BEGIN { exit !($time < $least) }"; then
            least=$time
        fi
    done
    echo "$least"
}

for rooms in "$@"; do
    "$top/bench/made_doors.py" "$rooms" >"$folder/doors.map"
    plain=$(seconds "$folder/doors.map" "$folder/plain.tree")
    models=$(seconds "$folder/doors.map" "$folder/models.tree" --models)
    bytes=$(($(stat -c %s "$folder/models.tree") - $(stat -c %s "$folder/plain.tree")))
    awk -v rooms="$rooms" -v plain="$plain" -v models="$models" -v bytes=$bytes 'BEGIN {
        printf "%5d doors: %.3f s without models, %.3f s with them, %.3f ms a door, %d bytes a door\n",
            rooms, plain, models, (models - plain) / rooms * 1000, bytes / rooms }'
done
