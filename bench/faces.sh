#!/usr/bin/env bash
# Times faces: `compile --fast` of levels of N rooms with N doors (`made_doors.py`), or of maps that are named, with --faces and without
# it, and prints what a face takes: processor time, at the best of three runs, and bytes of the tree file.
#
#     bench/faces.sh [-p PROGRAM] [N | MAP]..
#
# Without words N is 250 and 1000; without -p it times what the launcher runs.
set -euo pipefail
top=$(cd -P -- "$(dirname -- "${BASH_SOURCE[0]}")/.." && pwd)
program=
if [[ ${1:-} == -p && $# -gt 1 ]]; then
    program=$(realpath "$2")
    shift 2
fi
for level in "$@"; do
    if [[ ! $level =~ ^[1-9][0-9]*$ && ! -f $level ]]; then
        echo "usage: bench/faces.sh [-p PROGRAM] [N | MAP].." >&2
        exit 2
    fi
done
[[ $program ]] || program=$(bash "$top/.ci/program")
(($# > 0)) || set -- 250 1000
folder=$(mktemp -d)
trap 'rm -rf "$folder"' EXIT

seconds() { # seconds WORD..: the least processor time of three runs
    local least="" time
    for _ in 1 2 3; do
        time=$({ TIMEFORMAT='%U %S' && time "$program" compile "$@" --fast >"$folder/printed"; } 2>&1)
        time=$(awk '{ print $1 + $2 }' <<<"$time")
        if [[ -z $least ]] || awk "BEGIN { exit !($time < $least) }"; then
            least=$time
        fi
    done
    echo "$least"
}

for level in "$@"; do
    map=$level
    if [[ ! -f $level ]]; then
        map=$folder/doors.map
        "$top/bench/made_doors.py" "$level" >"$map"
    fi
    plain=$(seconds "$map" "$folder/plain.tree")
    with=$(seconds "$map" "$folder/faces.tree" --faces)
    bytes=$(($(stat -c %s "$folder/faces.tree") - $(stat -c %s "$folder/plain.tree")))
    count=$("$program" inspect "$folder/faces.tree" faces)
    awk -v level="$(basename "$level" .map)" -v count="${count#faces }" -v plain="$plain" -v with="$with" -v bytes=$bytes 'BEGIN {
        printf "%s, %d faces: %.3f s without them, %.3f s with them, %.3f ms a face, %d bytes a face\n",
            level, count, plain, with, (with - plain) / count * 1000, bytes / count }'
done
