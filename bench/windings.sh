#!/usr/bin/env bash
# Times cuts of windings: builds crates/wind_bench and, where rustc is on the PATH, the plain Rust programs
# of bench/plain.rs, and prints for each stream how many millions of windings a second each of them
# cuts, by processor time, at the best of five runs. `bench/windings.sh ROUNDS` takes longer or shorter streams.
set -euo pipefail
cd "$(dirname "${BASH_SOURCE[0]}")/.."
rounds=${1:-2000}
folder=$(mktemp -d)
trap 'rm -rf "$folder"' EXIT

(cd crates/wind_bench && rt run -- squares 1) >"$folder/log" 2>&1 || {
    cat "$folder/log" >&2
    exit 1
}
cp crates/wind_bench/out/wind_bench "$folder/proved"
programs=(proved)
if command -v rustc >/dev/null; then
    rustc -O bench/plain.rs -o "$folder/plain"
    rustc -O --cfg cuboid bench/plain.rs -o "$folder/plain_cuboid"
    programs+=(plain plain_cuboid)
fi

seconds() { # seconds PROGRAM STREAM: the least processor time of five runs
    local least="" time
    for _ in 1 2 3 4 5; do
        time=$({ TIMEFORMAT=%U && time "$folder/$1" "$2" "$rounds" >"$folder/counts.$1"; } 2>&1)
        if [[ -z $least ]] || awk "BEGIN { exit !($time < $least) }"; then
            least=$time
        fi
    done
    echo "$least"
}

printf '%-10s' stream
printf '%14s' "${programs[@]}"
printf '   million windings a second\n'
for stream in squares octagons misses chains tree; do
    printf '%-10s' "$stream"
    for program in "${programs[@]}"; do
        time=$(seconds "$program" "$stream")
        awk -v time="$time" '{ printf "%14.2f", ($3 + $5 + $7) / time / 1000000 }' "$folder/counts.$program"
        cmp -s "$folder/counts.proved" "$folder/counts.$program" || printf ' (other counts)'
    done
    printf '\n'
done
