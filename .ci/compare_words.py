#!/usr/bin/env python3
"""Compares how a program reads the words of its command with a plain slow reader of them.

    .ci/compare_words.py PROGRAM [--all]

The program runs in an empty folder: on each list of up to three telling words, and on each of four that begins with `compile`,
or with --all on each of up to four; on single words in each place where they are a number or a query; and on lists of five to
ten words, made of a command by one change or none; and on those of the table of mistakes in docs/EDITORS.md. Words that are no
command have to print the usage line and end with 2. Of any others a demo ends with 0, and the rest with 5, since their files are
missing.
"""

from concurrent.futures import ThreadPoolExecutor
import itertools
import os
from pathlib import Path
import random
import re
import shlex
import subprocess
import sys
import tempfile

from compare_texts import read_number

PAGE = Path(__file__).resolve().parent.parent.joinpath("docs/EDITORS.md").read_text(encoding="utf-8")
USAGE = (b"usage: qmapc compile MAP OUT [--prt FILE] [--threads N] [--fast] [--hulls] [--models] [--faces] | inspect TREE QUERY.. | format MAP OUT"
         b" | demo N NUMBER | upgrade TREE OUT\n")
TELLING = ["compile", "inspect", "format", "demo", "upgrade", "a", "8", "04", "count", "--fast", "--hulls", "--models", "--faces", "--prt",
           "--prt=a", "--threads", "--threads=8", "-x", ""]
NUMBERS = ["", "0", "00", "1", "01", "2", "7", "+1", "-1", "1.", "1.0", "1e0", "0x1", " 1", "1 ", "1,", "1_0", "\u0661", "\uff11",
           "\udcff", "64", "65", "256", "257", "4294967297", "999999999999999999", "1000000000000000000", "18446744073709551615",
           "18446744073709551616", "18446744073709551617", "0" * 40 + "1", "9" * 200]
PLACES = ["0", "-0", "+1", "1.5", ".5", "5.", "1.2345670", "1.2345678", "1.2345678.", "1000000000", "1000000000.000001",
          "-1000000001", "9" * 30, "0" * 30, "", ".", "-", "+", "--1", "1e3", " 1", "x", "\u0661", "1,"]
QUERIES = ["count", "COUNT", "count=", "count ", "Count", "cou", "parts", "PARTS", "part", "parts=", "parts=1", "parts ",
           "at", "at=", "at=,,", "at=1,2", "at=1,2,3", "at=1,2,3,", "at=1,2,3,4", "at= 1,2,3", "at=1, 2,3", "at 1,2,3",
           "AT=1,2,3", "at=1;2;3", "at==1,2,3", "row", "row=", "row 0", "row=0,", "rows=0", "sees", "sees=", "sees=0", "sees=0,",
           "sees=,0", "sees=0,1", "sees=0,1,2", "sees=0 1", "see=0,1", "hull", "hull=", "hull=1", "hull=1,2,3", "hull=1,2,3,4",
           "hull=2,-1.5,+3,.5", "hull=0,2,3,4", "hull=3,2,3,4", "hull=12,2,3,4", "hull=01,2,3,4", "hull=+1,2,3,4", "hull=1.,2,3,4",
           "hull=,2,3,4", "hull= 1,2,3,4", "hull=1 ,2,3,4", "hull=1,2,3,4,5", "hull=1,2,3,", "hull=\u0661,2,3,4", "hull==1,2,3,4",
           "HULL=1,2,3,4", "hulls=1,2,3,4", "hull1,2,3,4", "trace", "trace=", "trace=1,2,3",
           "trace=1,2,3,4,5", "trace=1,2,3,4,5,6", "trace=-1.5,+2,.5,3.,0,-0", "trace=1,2,3,4,5,6,7", "trace=1,2,3,4,5,", "trace=1,2,3;4,5,6",
           "TRACE=1,2,3,4,5,6", "traces=1,2,3,4,5,6", "hulltrace", "hulltrace=1", "hulltrace=1,2,3,4,5,6", "hulltrace=1,2,3,4,5,6,7",
           "hulltrace=2,1,2,3,4,5,6", "hulltrace=3,1,2,3,4,5,6", "hulltrace=02,1,2,3,4,5,6", "hulltrace=,1,2,3,4,5,6", "hulltrace=1,1,2,3,4,5,6,7",
           "hull=1,1,2,3,4,5,6", "model", "model=", "model=0", "model=1", "model=01", "model=+1", "model=-1", "model=1.", "model=1,",
           "model=1,2", "model=1,2,3", "model=1,2,3,4", "model=0,-1.5,+3,.5", "model=01,2,3,4", "model=,2,3,4", "model=1 ,2,3,4", "model= 1,2,3,4",
           "model=1,2,3,4,5", "model=1,2,3,", "model=999999999999999999,2,3,4", "model=1000000000000000000,2,3,4", "model=1000000000000000000",
           "model=\u0661,2,3,4", "model==1", "MODEL=1", "models=1", "model1",
           "faces", "FACES", "faces=", "faces=1", "face", "face=", "face=0", "face=1", "face=01", "face=+1", "face=-1", "face=1.", "face=1,",
           "face=1,2", "face= 1", "face=999999999999999999", "face=1000000000000000000", "face=\u0661", "face==1", "FACE=1", "face1",
           "help", "--help", "-count", "-", "--", "\u00e9", "at=1,2,\u00b3", "\udcff"]


def bytes_of(word):
    """The bytes of a word. Those that are not UTF-8 are written as halves of surrogate pairs."""
    return word.encode("utf-8", "surrogateescape")


def is_text(word):
    """Whether the bytes of a word are UTF-8."""
    return not re.search("[\ud800-\udfff]", word)


def is_name(word):
    """Whether a word can be the name of a file."""
    return word != "" and word[0] != "-"


def is_number(word, least, most):
    """Whether a word is a decimal number without sign or leading zero, from one number to another."""
    return re.fullmatch("0|[1-9][0-9]*", word) is not None and least <= int(word) <= most


def is_place(word):
    """Whether a word is a decimal number of at most six places that is not too large."""
    return not isinstance(read_number(bytes_of(word), 6), str)


def is_query(word):
    """Whether a word asks a tree something."""
    verb, _, rest = word.partition("=")
    values = rest.split(",")
    if verb == "at":
        return len(values) == 3 and all(map(is_place, values))
    if verb == "hull":
        return values[0] in ("1", "2") and len(values) == 4 and all(map(is_place, values[1:]))
    if verb == "trace":
        return len(values) == 6 and all(map(is_place, values))
    if verb == "hulltrace":
        return values[0] in ("1", "2") and len(values) == 7 and all(map(is_place, values[1:]))
    if verb == "model":
        return len(values) in (1, 4) and is_number(values[0], 0, 10 ** 18 - 1) and all(map(is_place, values[1:]))
    if verb not in ("face", "row", "sees"):
        return word in ("count", "faces", "parts")
    return len(values) == (2 if verb == "sees" else 1) and all(is_number(value, 0, 10 ** 18 - 1) for value in values)


def is_compile(words):
    """Whether words are those behind `compile`: two names, and options, each at most once and in any place."""
    names, given = [], {}
    words = list(words)
    while words:
        word = words.pop(0)
        option, equals, value = word.partition("=")
        if option in ("--fast", "--hulls", "--models", "--faces") and not equals:
            value = "given"
        elif option in ("--prt", "--threads"):
            if not equals:
                value = words.pop(0) if words else ""
                if not is_name(value):
                    return False
        elif is_name(word):
            names.append(word)
            continue
        else:
            return False
        if option in given or value == "":
            return False
        given[option] = value
    listed = [given["--prt"]] if "--prt" in given else []
    return len(names) == 2 and len(set(names + listed)) == len(names + listed) and is_number(given.get("--threads", "1"), 1, 64)


def command_of(words):
    """The first word, where the words are a command, else None."""
    verb, rest = words[:1], words[1:]
    if verb == ["compile"]:
        good = is_compile(rest)
    elif verb == ["inspect"]:
        good = len(rest) >= 2 and is_name(rest[0]) and all(map(is_query, rest[1:]))
    elif verb in (["format"], ["upgrade"]):
        good = len(rest) == 2 and all(map(is_name, rest)) and rest[0] != rest[1]
    else:
        good = verb == ["demo"] and len(rest) == 2 and is_number(rest[0], 1, 64) and is_number(rest[1], 0, 2 ** 64 - 1)
    return verb[0] if good and all(map(is_text, words)) else None


def single_words():
    """Lists in which one word is of some form, in each place where it can be a number or a query."""
    for word in NUMBERS:
        yield ["demo", word, "0"]
        yield ["demo", "1", word]
        yield ["compile", "a", "b", "--threads", word]
        yield ["compile", "a", "b", f"--threads={word}"]
        yield ["inspect", "a", f"row={word}"]
        yield ["inspect", "a", f"face={word}"]
        yield ["inspect", "a", f"model={word}"]
        yield ["inspect", "a", f"model={word},1,2,3"]
        yield ["inspect", "a", f"sees={word},1"]
        yield ["inspect", "a", "count", f"sees=1,{word}"]
    for word in PLACES:
        for places in itertools.permutations([word, "0", "-1.5"]):
            yield ["inspect", "a", "at=" + ",".join(places)]
            yield ["inspect", "a", "hull=2," + ",".join(places)]
            yield ["inspect", "a", "model=2," + ",".join(places)]
            yield ["inspect", "a", "trace=" + ",".join([*places, *places[::-1]])]
    for word in QUERIES:
        yield ["inspect", "a", word]
        yield ["inspect", "count", word, "count"]
        yield ["inspect", word, "count"]


def long_lists(count):
    """Lists of five to ten words, each a command of one sort or another with one change or none."""
    draw = random.Random(7)
    while count:
        options = draw.sample([["--fast"], ["--hulls"], ["--models"], ["--faces"], draw.choice([["--prt", "c"], ["--prt=c"], ["--prt=-c"]]),
                               draw.choice([["--threads", "8"], ["--threads=64"]])], draw.randint(1, 6))
        parts = [["a"], ["b"], *options]
        draw.shuffle(parts)
        words = ["compile", *itertools.chain(*parts)]
        if draw.random() < 0.2:
            words = ["inspect", "a", *draw.choices(["count", "parts", "at=1,2,3", "hull=1,2,3,4", "trace=1,2,3,4,5,6", "row=0", "sees=0,1"], k=draw.randint(3, 7))]
        at = draw.randrange(len(words))
        change = draw.randrange(5)
        if change == 1:
            del words[at]
        elif change == 2:
            words.insert(at, draw.choice(words))
        elif change == 3:
            words[at] = draw.choice(TELLING)
        elif change == 4:
            words.insert(at, draw.choice(TELLING))
        if 5 <= len(words) <= 10:
            count -= 1
            yield words


def mistakes():
    """The rows of the table of mistakes: words that are no command, and those to write."""
    table = PAGE.partition("### Words that are no command\n")[2].partition("\n## ")[0]
    rows = re.findall(r"^\| `([^`]*)` \|[^|]*\| `([^`]*)` \|$", table, re.M)
    return [(shlex.split(left), shlex.split(right)) for left, right in rows]


def faults_of_page():
    """What is wrong with the tables of the page: that of mistakes, and that of places, which end in a query."""
    places = re.findall(r"\| `(at=[^`]*)` \|$", PAGE, re.M)
    for left, right in mistakes():
        if command_of(left) or not command_of(right):
            yield f"docs/EDITORS.md says that {left} is no command, and {right} is one"
    for word in places:
        if not is_query(word):
            yield f"docs/EDITORS.md says that {word} is a query"
    if not places or not mistakes():
        yield "docs/EDITORS.md has no table of mistakes, or none of places"


def lists(whole):
    """The lists to try."""
    for length in range(5 if whole else 4):
        yield from map(list, itertools.product(TELLING, repeat=length))
    if not whole:
        yield from (["compile", *words] for words in itertools.product(TELLING, repeat=3))
    yield from single_words()
    yield from long_lists(600)
    yield from itertools.chain(*mistakes())


def faults_of(program, folder, words):
    """What is wrong with how a program ends on words, or None."""
    ran = subprocess.run([program, *map(bytes_of, words)], cwd=folder, stdin=subprocess.DEVNULL, capture_output=True, check=False)
    command = command_of(words)
    if command is None:
        good = ran.returncode == 2 and ran.stdout == USAGE
    elif command == "demo":
        good = ran.returncode == 0 and ran.stdout.startswith(b"sealed\n")
    else:
        good = ran.returncode == 5 and ran.stdout == b"read fault\n"
    if good and not ran.stderr:
        return None
    return f"{words}: ended with {ran.returncode} and printed {ran.stdout + ran.stderr!r}, and they are {command or 'no command'}"


def main():
    program, whole = os.path.abspath(sys.argv[1]), sys.argv[2:] == ["--all"]
    with tempfile.TemporaryDirectory() as folder, ThreadPoolExecutor(os.cpu_count()) as runs:
        found = list(runs.map(lambda words: faults_of(program, folder, words), lists(whole)))
        left = os.listdir(folder)
    wrong = [*faults_of_page(), *filter(None, found), *(f"the file {name!r} was made" for name in left)]
    print(*wrong[:20], f"{len(found)} lists of words, {len(wrong)} wrong", sep="\n")
    sys.exit(1 if wrong else 0)


if __name__ == "__main__":
    main()
