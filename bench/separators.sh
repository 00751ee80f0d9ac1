#!/usr/bin/env bash
# Times separators, steps and tests of portals: builds crates/narrow_bench and, where rustc is on the PATH, the plain Rust program of
# bench/plain_separators.rs, and prints for each shape of openings how many microseconds a call each of them takes, by
# processor time, at the best of five runs, both in turn. `bench/separators.sh ROUNDS` takes more or fewer rounds.
set -euo pipefail
cd "$(dirname "${BASH_SOURCE[0]}")/.."
rounds=${1:-500}
folder=$(mktemp -d)
trap 'rm -rf "$folder"' EXIT

(cd crates/narrow_bench && rt run -- separators whole 1) >"$folder/log" 2>&1 || {
    cat "$folder/log" >&2
    exit 1
}
cp crates/narrow_bench/out/narrow_bench "$folder/proved"
programs=(proved)
if command -v rustc >/dev/null; then
    rustc -O bench/plain_separators.rs -o "$folder/plain"
    programs+=(plain)
fi

printf '%-22s' ''
printf '%10s' "${programs[@]}"
printf '   microseconds a call\n'
for phase in separators step may_pass; do
    for shape in whole turned fractional hexagons; do
        declare -A least=()
        for _ in 1 2 3 4 5; do
            for program in "${programs[@]}"; do
                time=$({ TIMEFORMAT=%U && time "$folder/$program" "$phase" "$shape" "$rounds" >"$folder/counts.$program"; } 2>&1)
                if [[ -z ${least[$program]:-} ]] || awk "BEGIN { exit !($time < ${least[$program]}) }"; then
                    least[$program]=$time
                fi
            done
        done
        printf '%-22s' "$phase $shape"
        for program in "${programs[@]}"; do
            awk -v time="${least[$program]}" '{ printf "%10.2f", time / $4 * 1000000 }' "$folder/counts.$program"
            cmp -s "$folder/counts.proved" "$folder/counts.$program" || printf ' (other counts)'
        done
        printf '\n'
    done
done
