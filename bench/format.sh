#!/usr/bin/env bash
# Times `qmapc format`: builds the compiler and, where rustc is on the PATH, the plain Rust program of
# bench/plain_format.rs, and prints for each form of text, with LF and CR LF lines, how many seconds of processor
# time each of them takes at the best of five runs, how many megabytes a second qmapc does, and the peak of its
# memory in bytes for each byte of text. Then the peak in megabytes of two texts that are refused: one at its last
# token, and 64 MB of comments, of which nothing has to be kept. `bench/format.sh MEGABYTES` takes longer or shorter
# texts than 20 MB.
set -euo pipefail
cd "$(dirname "${BASH_SOURCE[0]}")/.."
megabytes=${1:-20}
folder=$(mktemp -d)
trap 'rm -rf "$folder"' EXIT

# what `./qmapc` runs, without the script around it
program=$(bash .ci/program)
programs=("$program format")
if command -v rustc >/dev/null; then
    rustc -O --edition 2024 bench/plain_format.rs -o "$folder/plain"
    programs+=("$folder/plain")
fi

# the least processor time of five runs of a program with its words, and the most kilobytes that it had
measure() {
    python3 - "$@" <<'END'
import os, sys
least, peak = float("inf"), 0
for _ in range(5):
    child = os.fork()
    if child == 0:
        os.dup2(os.open(os.devnull, os.O_WRONLY), 1)
        os.execv(sys.argv[1], sys.argv[1:])
    _, status, usage = os.wait4(child, 0)
    if status != 0:
        sys.exit(f"{sys.argv[1]} failed")
    least, peak = min(least, usage.ru_utime + usage.ru_stime), max(peak, usage.ru_maxrss)
print(f"{least:.3f} {peak}")
END
}

printf '%-18s%12s%12s%8s%8s%14s%14s\n' text 'qmapc s' 'plain s' ratio MB/s 'bytes a byte' 'of plain'
for text in standard valve mixed 'mixed crlf' eighths braces origins; do
    map="$folder/map"
    # shellcheck disable=SC2086  # two words stand for two words
    bench/make_map.py "$megabytes" $text >"$map"
    rows=()
    for i in "${!programs[@]}"; do
        # shellcheck disable=SC2086
        rows+=("$(measure ${programs[i]} "$map" "$folder/out.$i")")
        cmp "$folder/out.0" "$folder/out.$i"
    done
    awk -v text="$text" -v bytes="$(stat -c %s "$map")" -v ours="${rows[0]}" -v plain="${rows[1]:-0 0}" 'BEGIN {
        split(ours, o); split(plain, p)
        printf "%-18s%12.3f%12.3f%8.2f%8.1f%14.2f%14.2f\n", text, o[1], p[1], (p[1] > 0 ? o[1] / p[1] : 0),
            bytes / o[1] / 1000000, o[2] * 1024 / bytes, p[2] * 1024 / bytes
    }'
done

# the least seconds of three runs of a program with its words, which refuses the map, and the most kilobytes that it
# was seen to have; what the system counts at the end would be no less than this script has
refusing() {
    python3 - "$@" <<'END'
import os, re, sys
least, peak = float("inf"), 0
for _ in range(3):
    child = os.fork()
    if child == 0:
        os.dup2(os.open(os.devnull, os.O_WRONLY), 1)
        os.execv(sys.argv[1], sys.argv[1:])
    ended = 0
    while not ended:
        with open(f"/proc/{child}/status") as now:
            text = now.read()
        if f"Name:\t{os.path.basename(sys.argv[1])}\n" in text:
            peak = max([peak, *map(int, re.findall(r"VmHWM:\s*(\d+)", text))])
        ended, status, usage = os.wait4(child, os.WNOHANG)
    if os.waitstatus_to_exitcode(status) != 4:
        sys.exit(f"{sys.argv[1]} refused nothing")
    least = min(least, usage.ru_utime + usage.ru_stime)
print(f"{least:.3f} {peak}")
END
}

printf '\n%-18s%12s%12s%14s%14s\n' text 'qmapc s' 'plain s' 'qmapc MB' 'plain MB'
for text in 'refused at its end' comments; do
    map="$folder/map"
    case $text in
    comments) head -c 64000000 <(yes '// a comment of some words') >"$map" ;;
    *) bench/make_map.py "$megabytes" standard >"$map" && echo x >>"$map" ;;
    esac
    rows=()
    for program in "${programs[@]}"; do
        # shellcheck disable=SC2086
        rows+=("$(refusing $program "$map" "$folder/none")")
    done
    awk -v text="$text" -v ours="${rows[0]}" -v plain="${rows[1]:-0 0}" 'BEGIN {
        split(ours, o); split(plain, p)
        printf "%-18s%12.3f%12.3f%14.1f%14.1f\n", text, o[1], p[1], o[2] * 1024 / 1000000, p[2] * 1024 / 1000000
    }'
done
