"""Refuses a request for memory in a run of the program, and then another one in another run, for each command.

Usage: refuse_requests.py PROGRAM [STEP]

Of each command the first request is refused, and then in a run of its own each STEP-th after it, 23 where that is not named, to
the last. Each run has to end with status 0, the bytes and the text of a run in which nothing is refused; or with 7, nothing
printed, and of OUT and FILE the first bytes or none, FILE only behind a whole OUT. A worker that finds no memory leaves its work
to others, so some of the runs of several workers in which a request was refused end with 0. The levels are such whose rows are the
same for each number of workers. The last line counts the runs.
"""

import os
from pathlib import Path
import subprocess
import sys
import tempfile

HERE = Path(__file__).resolve().parent
sys.path.insert(0, str(HERE))

sys.path.insert(0, str(HERE.parent / "tools"))

from made_trees import cube, written  # noqa: E402
import treefile  # noqa: E402

DONE, WANT_OF_MEMORY = 0, 7
OUTPUTS = ("out", "list")
COMMANDS = {
    "one cube, two workers": ("compile", "cube.map", "out", "--prt", "list", "--threads", "2"),
    "three rooms, four workers": ("compile", "rooms.map", "out", "--threads", "4"),
    "three rooms, coarse rows": ("compile", "rooms.map", "out", "--fast"),
    "three rooms, clip hulls, two workers": ("compile", "rooms.map", "out", "--fast", "--hulls", "--threads", "2"),
    "inspect hulls": ("inspect", "hulled.tree", "parts", "hull=1,1,2,3", "hull=2,-40,0,0"),
    "inspect": ("inspect", "first.tree", "count", "parts", "at=1,2,3", "row=2", "sees=0,1"),
    "upgrade": ("upgrade", "first.tree", "out"),
    "format": ("format", "rooms.map", "out"),
    "demo": ("demo", "2", "0"),
}


class Runs:
    """Runs of one command in a folder of their own."""

    def __init__(self, words, folder, shim):
        self.words, self.folder, self.shim = words, folder, shim
        self.outputs = [Path(folder, name) for name in OUTPUTS if name in words]

    def run(self, number):
        """How a run ended in which the request of this number was to be refused, what it printed and wrote, and whether there was
        such a request."""
        for output in self.outputs:
            output.unlink(missing_ok=True)
        surroundings = {**os.environ, "LD_PRELOAD": self.shim, "REFUSED": str(number)}
        ran = subprocess.run(self.words, cwd=self.folder, env=surroundings, capture_output=True, timeout=60, check=False)
        if ran.stderr not in (b"", b"refused\n"):
            sys.exit(f"request {number} refused: the program ended with {ran.returncode} and said {ran.stderr!r}")
        written = [output.read_bytes() if output.exists() else b"" for output in self.outputs]
        return ran.returncode, ran.stdout, written, bool(ran.stderr)

    def refuse(self, step):
        """How many of the runs ended with want of memory, and how many were whole."""
        status, text, due, _ = self.run(0)
        if status != DONE:
            sys.exit(f"the program ended with {status} where nothing was refused")
        whole, wanting, number, is_refused = 0, 0, 1, True
        while is_refused:
            status, printed, written, is_refused = self.run(number)
            if status == DONE and (printed, written) == (text, due):
                whole += is_refused
            elif status == WANT_OF_MEMORY and is_refused and not printed and are_parts(written, due):
                wanting += 1
            else:
                sys.exit(f"request {number} refused: status {status}, printed {printed!r}")
            number += step
        return wanting, whole


def are_parts(written, due):
    """Whether each output has the first bytes of what is due, or none, and one that has any stands behind whole ones."""
    return all(whole.startswith(part) and (not part or written[:at] == due[:at]) for at, (part, whole) in enumerate(zip(written, due)))


def main(program, step=23):
    counts = []
    with tempfile.TemporaryDirectory() as folder:
        shim = os.path.join(folder, "refused_request.so")
        subprocess.run(["cc", "-shared", "-fPIC", "-O1", "-o", shim, str(HERE / "refused_request.c")], check=True)
        for name in ("cube.map", "rooms.map"):
            Path(folder, name).write_bytes(Path(HERE.parent, "samples", name).read_bytes())
        Path(folder, "first.tree").write_bytes(cube(1))
        plain = written(treefile.decode(cube())._replace(rows=None))
        Path(folder, "hulled.tree").write_bytes(cube(2, treefile.BOUNDS[-1], [(1, plain), (2, plain)]))
        for name, words in COMMANDS.items():
            wanting, whole = Runs([os.path.abspath(program), *words], folder, shim).refuse(int(step))
            print(f"{name}: {wanting + whole} requests refused, {wanting} ended with want of memory, {whole} whole")
            counts.append((wanting, whole))
    print(f"{sum(map(sum, counts))} requests refused")
    return not (all(wanting for wanting, _ in counts) and any(whole for _, whole in counts))


if __name__ == "__main__":
    if len(sys.argv) not in (2, 3):
        sys.exit(__doc__)
    sys.exit(main(*sys.argv[1:]))
