"""Lets each call to the system of a run of the program fail, in a run of its own, for each command.

Usage: fail_calls.py PROGRAM

Each open, read, write, close and seek of a run ends with an error of the device or of a full one, is interrupted, reads or
writes one byte alone, or meets a disk that becomes full; and at each of them the program is killed. A run that an interruption
or a short count meets has to end as if nothing had happened, and so has one in which a file is not closed well, of which the
system's calls tell nothing to the program. Of any other the status has to be the one that is due: 5 where MAP or TREE is not
read, and nothing is written; 6 where OUT, FILE or the text is not, and then what is written before is whole, what fails is as it
was or has the first bytes of what is due, and what is written behind it is as it was. The last line counts the runs.
"""

import errno
import os
from pathlib import Path
import subprocess
import sys
import tempfile

HERE = Path(__file__).resolve().parent
sys.path.insert(0, str(HERE))

from made_trees import long_tree, written  # noqa: E402
sys.path.insert(0, str(HERE.parent / "tools"))
import treefile  # noqa: E402

DONE, READ_FAULT, WRITE_FAULT = 0, 5, 6
OLD = b"what was there before"
INPUTS, OUTPUTS, KINDS = ("given.map", "text.map", "first.tree"), ("out", "list"), ("open", "read", "write", "close", "seek")
SAMPLES = HERE.parent / "samples"
COMMANDS = {
    "compile": ("compile", "given.map", "out", "--fast"),
    "compile with a listing": ("compile", "given.map", "out", "--prt", "list", "--threads", "2"),
    "format": ("format", "text.map", "out"),
    "inspect": ("inspect", "first.tree", "count", "at=1,2,3"),
    "demo": ("demo", "3", "7"),
    "upgrade": ("upgrade", "first.tree", "out"),
}
ENDS = {
    "open": [errno.EIO, errno.ENOSPC, errno.EINTR, errno.EMFILE],
    "read": [errno.EIO, errno.EINTR, "short"],
    "write": [errno.EIO, errno.ENOSPC, errno.EINTR, "short", "zero", "full"],
    "close": [errno.EIO, errno.ENOSPC, errno.EINTR],
    "seek": [errno.EIO],
}


def brushes(count):
    """A text of so many boxes, longer than what is read or written at once."""
    box = Path(SAMPLES, "cube.map").read_text(encoding="ascii").split("\n", 1)[1].rsplit("}", 1)[0]
    return "{\n" + "".join(box.replace("64", str(1 + place % 4000)) for place in range(count)) + "}\n"


class Runs:
    """Runs of one command in a folder of their own."""

    def __init__(self, program, words, folder, shim):
        self.words, self.folder, self.shim = [program, *words], folder, shim
        self.outputs = [name for name in OUTPUTS if name in words]
        self.wrong, self.counts = [], dict.fromkeys(KINDS, 0)
        self.status, self.text, _, self.due = self.run("none", 0, 0)

    def run(self, kind, number, end):
        """How a run ended in which the call of this number was to end so, what it printed and said, and what each output then is."""
        for name in self.outputs:
            Path(self.folder, name).write_bytes(OLD)
        surroundings = {**os.environ, "LD_PRELOAD": self.shim, "CALL": kind, "NUMBER": str(number), "END": str(end)}
        ran = subprocess.run(self.words, cwd=self.folder, env=surroundings, capture_output=True, timeout=60, check=False)
        return ran.returncode, ran.stdout, ran.stderr.decode(), [Path(self.folder, name).read_bytes() for name in self.outputs]

    def try_all(self):
        """Lets each call end in each way."""
        for kind in KINDS:
            for end in [*ENDS[kind], "killed"]:
                number, said = 1, "some"
                while said:
                    status, text, said, files = self.run(kind, number, end)
                    if not self.is_right(kind, end, said.strip(), status, text, files):
                        self.wrong.append(f"{kind} {number} of {said.strip()!r} ends with {end}: status {status}, printed {text[:60]!r}, "
                                          f"outputs of {[len(file) for file in files]} bytes")
                    self.counts[kind] += bool(said)
                    number += 1

    def is_right(self, kind, end, name, status, text, files):
        """Whether a run ended as it has to, where a call on this file ended so."""
        name = os.path.basename(name)
        if end == "killed" and name:
            return status == -9 and self.text.startswith(text) and self.are_in_order(files)
        if not name or kind == "close" or end in (errno.EINTR, "short") or kind == "open" and name not in INPUTS + OUTPUTS:
            return (status, text, files) == (DONE, self.text, self.due)
        if name in INPUTS:
            return (status, text, files) == (READ_FAULT, b"read fault\n", [OLD] * len(files))
        if name in OUTPUTS:
            # a full disk takes the line neither, where the text goes to it
            at = self.outputs.index(name)
            line_is_right = text == b"write fault\n" or end == "full" and not text
            return (status == WRITE_FAULT and line_is_right and files[:at] == self.due[:at]
                    and is_part(files[at], self.due[at]) and all(file == OLD for file in files[at + 1:]))
        return status == WRITE_FAULT and self.text.startswith(text) and files == self.due

    def are_in_order(self, files):
        """Whether each output is as it was, or has the first bytes of what is due, and one is touched only where all before are whole."""
        return all(is_part(file, due) and (file == OLD or files[:at] == self.due[:at])
                   for at, (file, due) in enumerate(zip(files, self.due)))


def is_part(file, due):
    """Whether a file is as it was, or has the first bytes of what is due in it."""
    return file == OLD or due.startswith(file)


def main(program):
    program, bad = os.path.abspath(program), 0
    with tempfile.TemporaryDirectory() as folder:
        shim = os.path.join(folder, "failed_call.so")
        subprocess.run(["cc", "-shared", "-fPIC", "-O1", "-o", shim, str(HERE / "failed_call.c"), "-ldl"], check=True)
        Path(folder, "given.map").write_bytes(Path(SAMPLES, "rooms8.map").read_bytes())
        Path(folder, "text.map").write_text(brushes(500), encoding="ascii")
        Path(folder, "first.tree").write_bytes(written(treefile.decode(long_tree(1500)), 1))
        total = dict.fromkeys(KINDS, 0)
        for name, words in COMMANDS.items():
            runs = Runs(program, words, folder, shim)
            if runs.status != DONE:
                sys.exit(f"{name}: the program ended with {runs.status} where nothing failed")
            runs.try_all()
            total = {kind: total[kind] + runs.counts[kind] for kind in KINDS}
            bad += len(runs.wrong)
            print(*(f"{name}: {wrong}" for wrong in runs.wrong), sep="\n", end="\n" if runs.wrong else "")
    print("runs in which a call ended otherwise:", ", ".join(f"{kind} {total[kind]}" for kind in KINDS) + f"; {bad} runs ended wrong")
    return bad != 0 or not all(total[kind] for kind in ("open", "read", "write", "close"))


if __name__ == "__main__":
    if len(sys.argv) != 2:
        sys.exit(__doc__)
    sys.exit(main(sys.argv[1]))
