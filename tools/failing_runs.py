#!/usr/bin/env python3
"""Runs commands that are refused, and compares how each is told: its code, standard error and standard output.

The program is the one that `rt ci` built, since `rt try` tells more on standard error. What is wanted follows from
docs/TEXTS.md and docs/FORMAT.md.
"""
import pathlib
import subprocess
import sys
import tempfile
from typing import NamedTuple

from readme_runs import FOLDER, PROGRAM, TOP, is_fresh

SQUARE = TOP / "samples" / "square.bmtg"
ACCEPTED = "accepted nodes 3 patches 2 triangles 6 open 4\n"


class Case(NamedTuple):
    """A run: its words, what it reads, and what is wanted of it. `{}` is the folder of the files below."""
    words: str
    script: str
    code: int
    told: str
    written: str = ""


def files():
    """The files that the cases read, by name."""
    square = SQUARE.read_bytes()
    return {
        "square": square,
        "empty": b"",
        "cut": square[:100],
        "magic": b"X" + square[1:],
        "longer": square + b"\0",
    }


CASES = [
    Case("check {}/square", "", 0, "", ACCEPTED),
    Case("", "", 2, "usage\n"),
    Case("check", "", 2, "usage\n"),
    Case("check {}/square 1", "", 2, "usage\n"),
    Case("convert {}/square 3", "", 2, "usage\n"),
    Case("make 3", "", 2, "usage\n"),
    Case("play {}/square 060", "", 2, "usage\n"),
    Case("playw {}/square 9 144", "", 2, "usage\n"),
    Case("check {}/empty", "", 3, "file 6 0\n"),
    Case("base {}/cut", "", 3, "file 6 100\n"),
    Case("play {}/magic 144", "open 1\n", 3, "file 1\n"),
    Case("check {}/longer", "", 3, "file 7 245\n"),
    Case("check {}/missing", "", 4, "read fault\n"),
    Case("base {}", "", 4, "read fault\n"),
    Case("play {}/missing 144", "open 1\n", 4, "read fault\n"),
    Case("play {}/square 144", "open 1\nframe 1\n", 6, "script 48 2\n"),
    Case("play {}/square 144", "\nturn 1\n", 6, "script 49 2\n"),
    Case("playw {}/square 8 144", "open 01\n", 6, "script 44 1 2\n"),
    Case("play {}/square 59", "open 1\nframe 1\n", 7, "budget 60 59\n"),
]


def problem(case, folder):
    """What is wrong with the run of a case, if anything is."""
    words = [word.format(folder) for word in case.words.split()]
    run = subprocess.run([PROGRAM, *words], cwd=FOLDER, input=case.script.encode(), capture_output=True)
    found = (run.returncode, run.stderr.decode(), run.stdout.decode())
    wanted = (case.code, case.told, case.written)
    return None if found == wanted else f"`{case.words}` ends with {found}, and not with {wanted}"


def full_sink():
    """What is wrong where standard output takes nothing."""
    with open("/dev/full", "wb") as full:
        run = subprocess.run([PROGRAM, "check", SQUARE], cwd=FOLDER, stdin=subprocess.DEVNULL, stdout=full,
                             stderr=subprocess.PIPE)
    found = (run.returncode, run.stderr.decode())
    return None if found == (5, "write fault\n") else f"a full sink is told by {found}"


def main():
    if not is_fresh():
        print("run `rt ci` first: no program is as new as its sources", file=sys.stderr)
        return 1
    with tempfile.TemporaryDirectory() as folder:
        for name, content in files().items():
            (pathlib.Path(folder) / name).write_bytes(content)
        wrong = [it for it in [problem(case, folder) for case in CASES] + [full_sink()] if it]
    for line in wrong:
        print(line, file=sys.stderr)
    print(f"{len(CASES) + 1 - len(wrong)} runs are told as they should be, {len(wrong)} aren't")
    return 1 if wrong else 0


if __name__ == "__main__":
    sys.exit(main())
