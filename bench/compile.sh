#!/usr/bin/env bash
# Times `qmapc compile` on each map of a folder: `bench/compile.sh FOLDER [PEER]`. It builds what it times, and prints for
# each map the milliseconds of processor time at the best of seven runs: of each phase, by differences of
# crates/compile_bench, of the way up to the tree, and of the whole command with `--fast`, with its peak of memory in
# megabytes. PEER is another program that compiles with the words `compile MAP OUT --fast` and, where QM_TIMES is set, prints
# lines `time PHASE N ms  peak K KiB` on standard error; beside it stand its phases up to `build`, its peak there, and the
# ratios, and then its contacts with the flood, and their ratio.
set -euo pipefail
cd "$(dirname "${BASH_SOURCE[0]}")/.."
maps=$(cd "${1:?usage: bench/compile.sh FOLDER [PEER]}" && pwd)
peer=${2:-}
folder=$(mktemp -d)
trap 'rm -rf "$folder"' EXIT

(cd crates/compile_bench && rt run -- read data/cube.map) >"$folder/log" 2>&1 || {
    cat "$folder/log" >&2
    exit 1
}
program=$(bash .ci/program)
python3 - "$maps" "$folder/out.tree" crates/compile_bench/out/compile_bench "$program" "$peer" <<'END'
import os, re, shutil, subprocess, sys

maps, out, bench, program, peer = sys.argv[1:]
RUNS = 7
DONE, LEAK = 0, 3  # a map that leaks is compiled too
PHASES = ["read", "parse", "brushes", "build", "touches", "flood"]
TIME = shutil.which("time") or sys.exit("the command `time` is not on the PATH")


def measure(*words):
    """The least milliseconds of processor time of some runs."""
    least = float("inf")
    for _ in range(RUNS):
        child = os.fork()
        if child == 0:
            os.dup2(os.open(os.devnull, os.O_WRONLY), 1)
            os.execv(words[0], words)
        _, status, usage = os.wait4(child, 0)
        if os.waitstatus_to_exitcode(status) not in (DONE, LEAK):
            sys.exit(f"{' '.join(words)} failed")
        least = min(least, 1000 * (usage.ru_utime + usage.ru_stime))
    return least


def peak(*words):
    """The megabytes at the peak of a run. The command `time` asks, since a child of Python has had Python's memory."""
    said = subprocess.run(
        [TIME, "-f", "%M", *words], stdout=subprocess.DEVNULL, stderr=subprocess.PIPE, text=True
    ).stderr
    return int(said.split()[-1]) / 1024


def measure_peer(name):
    """The least milliseconds of its phases up to the tree, and its megabytes there; and those of contacts and flood."""
    least = peak = contacts = float("inf")
    for _ in range(RUNS):
        said = subprocess.run(
            [peer, "compile", name, out, "--fast"],
            env={**os.environ, "QM_TIMES": "1"},
            stdout=subprocess.DEVNULL,
            stderr=subprocess.PIPE,
            text=True,
        ).stderr
        lines = re.findall(r"^time (\S+)\s+([\d.]+) ms\s+peak\s+(\d+) KiB", said, re.M)
        total = 0.0
        for phase, took, kilobytes in lines:
            total += float(took)
            if phase == "build":
                peak = min(peak, int(kilobytes) / 1024)
                least = min(least, total)
                total = 0.0
            if phase == "flood":
                contacts = min(contacts, total)
                break
    return least, peak, contacts


heads = [*PHASES, "tree", "compile", "MB"] + (["peer", "MB", "ratio", "memory", "contacts", "ratio"] if peer else [])
print(f"{'map':<28}" + "".join(f"{head:>10}" for head in heads))
start = measure(bench)
for name in sorted(os.listdir(maps)):
    if not name.endswith(".map"):
        continue
    path = os.path.join(maps, name)
    times = [measure(bench, phase, path) for phase in PHASES]
    phases = [now - before for before, now in zip([start, *times], times)]
    tree = times[PHASES.index("build")] - start
    whole = [program, "compile", path, out, "--fast"]
    row = [*phases, tree, measure(*whole), peak(*whole)]
    if peer:
        its, its_peak, its_contacts = measure_peer(path)
        row += [its, its_peak, tree / its, peak(bench, "build", path) / its_peak]
        row += [its_contacts, (times[-1] - times[PHASES.index("build")]) / its_contacts]
    print(f"{name.removesuffix('.map'):<28}" + "".join(f"{value:>10.2f}" for value in row))
END
