#!/usr/bin/env python3
"""Stops runs of `qmbuild`, and reads what long ones say.

    .ci/stop_builds.py FOLDER

FOLDER has `tools` and `levels` with `cube.map`, and gets a program `qmapc` that takes its time. A run that a signal ends, ends
by it, leaves the files beside the level as they were, and its compiler is gone. A run of some seconds says so, in lines, or on a
terminal in one line with the portals that are begun.
"""

import os
from pathlib import Path
import pty
import re
import signal
import subprocess
import sys
import time

# of a text it says nothing; for coarse rows it does what it should, and without them it begins some portals
SLOW = """#!/bin/bash
case "$*" in
format*) exit ;;
*--fast) echo $$ >{folder}/began; {coarse} ;;
*) printf '\\rportals begun: 1' >&2; sleep 1.5; printf '\\rportals begun: 17' >&2; sleep 1.2; printf '\\r%35s\\r' '' >&2 ;;
esac
: >level.tree
printf 'sealed\\nnumbered 2\\nportals 20\\nseen 3\\n'
"""
OLD = b"what was there before"


def begin(folder, coarse, *words, errors=subprocess.PIPE):
    """A run in a session of its own, whose compiler does this for coarse rows."""
    Path(folder, "qmapc").unlink(missing_ok=True)
    Path(folder, "qmapc").write_text(SLOW.format(folder=folder, coarse=coarse))
    Path(folder, "qmapc").chmod(0o755)
    Path(folder, "began").unlink(missing_ok=True)
    return subprocess.Popen([f"{folder}/tools/qmbuild", "cube.map", *words], cwd=f"{folder}/levels", stdout=subprocess.PIPE,
                            stderr=errors, start_new_session=True)


def files(folder):
    """The files beside the level, with what they hold."""
    return {path.name: path.read_bytes() for path in Path(folder, "levels").rglob("*") if path.is_file()}


def is_running(number):
    """Whether a process runs."""
    try:
        os.kill(number, 0)
    except ProcessLookupError:
        return False
    return True


def faults_of_stop(folder, number):
    """What is wrong with a run that a signal ends, twice, once the compiler runs."""
    before = files(folder)
    run, began = begin(folder, "exec sleep 100"), Path(folder, "began")
    while not (began.exists() and began.read_text()):
        time.sleep(0.01)
    if not list(Path(folder, "levels").glob(".qmbuild-*/level.map")):
        yield "the folder for what is made on the way is not there"
    compiler = int(began.read_text())
    run.send_signal(number)
    run.send_signal(number)
    run.wait(timeout=60)
    if run.returncode != -number:
        yield f"stopped by {number!r} it ends with {run.returncode}"
    if files(folder) != before or list(Path(folder, "levels").glob(".*")):
        yield f"stopped by {number!r} it leaves {os.listdir(Path(folder, 'levels'))}"
    if is_running(compiler):
        yield f"stopped by {number!r} it leaves the compiler running"
    if run.stdout.read() or run.stderr.read():
        yield f"stopped by {number!r} it says something"


def faults_of_lines(folder):
    """What is wrong with the lines of a run of some seconds."""
    run = begin(folder, "sleep 2.6")
    printed, said = run.communicate(timeout=100)
    if run.returncode or printed != b"sealed; 2 open leaves, each sees 2 on average\ntree: cube.tree\n":
        yield f"it ends with {run.returncode} and prints {printed}"
    if not re.fullmatch(rb"(qmbuild: [a-z ]+, \d+ s\n)+qmbuild: took \d+ s\n", said):
        yield f"it says {said}"


def faults_of_terminal(folder):
    """What is wrong with what a run of some seconds shows on a terminal."""
    ours, theirs = pty.openpty()
    run = begin(folder, ":", "--full", "--threads", "2", errors=theirs)
    os.close(theirs)
    shown = b""
    try:
        while part := os.read(ours, 4096):
            shown += part
    except OSError:
        pass
    if run.wait() or not re.search(rb"\r\x1b\[Kqmbuild: computing the full visibility, 17 of 40 portals begun, \d+ s", shown):
        yield f"it shows {shown}"
    if not re.fullmatch(rb".*\r\x1b\[Kqmbuild: took \d+ s\r\n", shown, re.S):
        yield f"it shows at its end {shown[-80:]}"


def main(folder):
    # what runs beside a shell may have been begun with signals that are ignored
    for number in (signal.SIGINT, signal.SIGTERM, signal.SIGHUP):
        signal.signal(number, signal.SIG_DFL)
    for ending in (".tree", ".pts"):
        Path(folder, "levels", "cube" + ending).write_bytes(OLD)
    found = [fault for number in (signal.SIGINT, signal.SIGTERM, signal.SIGHUP) for fault in faults_of_stop(folder, number)]
    found += [*faults_of_lines(folder), *faults_of_terminal(folder)]
    sys.exit("\n".join(found) or 0)


if __name__ == "__main__":
    if len(sys.argv) != 2:
        sys.exit(__doc__)
    main(sys.argv[1])
