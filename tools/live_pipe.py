#!/usr/bin/env python3
"""Drives `live` over pipes, one line at a time, and looks whether each line is answered before the next is sent.

    live_pipe.py [LINES [SEED]]

A text that is held back shows as an answer that doesn't come in ten seconds. First each order and each refusal with the
answer that docs/TEXTS.md has; then random lines, valid, broken and of any bytes, over random files: the program goes on,
the bodies are the file's bytes, and the orders that it took, played by `play`, print what it answered. The program is
the one that `rt ci` built.
"""
import pathlib
import random
import subprocess
import sys
import tempfile

from live_driver import Driver, Late
from patch_files import Mesh
from random_files import random_file
from random_plays import random_budgets, random_view
from readme_runs import PROGRAM, TOP, is_fresh

LINES, LINES_A_RUN = 2000, 200
SQUARE = TOP / "samples" / "square.bmtg"
VIEW = "view 1 2 2 104 100 9 100"

# each line with its answer, over the square and a cache of 144 bytes
CASES = [
    ("status", ["tier 0 budget 144 load 60 held 1 coming"]),
    ("", []),
    (" \t \r", []),
    ("show 1", ["refused 47"]),
    ("body 1", ["refused 47"]),
    ("body 2", ["refused 47"]),
    ("body 0", ["body 0 60"]),
    ("open 1", ["open 1"]),
    ("open 1", ["refused 46"]),
    ("open 65", ["refused 45"]),
    ("show 1", ["refused 48"]),
    ("open 01", ["refused 44 2"]),
    ("turns x", ["refused 44 2"]),
    ("body", ["refused 43"]),
    ("turns 1 2", ["refused 43"]),
    ("opens 1", ["refused 42"]),
    ("open 1\x7f", ["refused 41"]),
    ("x" * 4096, ["refused 42"]),
    ("x" * 4097, ["refused 40"]),
    (" " * 4097, ["refused 40"]),
    ("turn 1", ["refused 49"]),
    (VIEW, ["view 1"]),
    ("step 1", ["step 1 try 1 0"]),
    ("step 1", ["step 1 withdraw 1"]),
    ("step 1", ["step 1 done"]),
    ("show 1", ["show 1 1 nodes 1 patches 1 triangles 2", "cut 0", "tries 1:0", "patches 0"]),
    ("turns 0", ["end"]),
    ("turns 2", ["turn 0 reserve 1", "turn 0 got 1", "end"]),
    ("turn 0", ["turn 0 commit 1"]),
    ("turns 9", ["turn 0 idle", "end"]),
    ("settle", ["turn 0 idle"]),
    ("body 1", ["refused 47"]),
    ("show 1", ["show 1 2 nodes 2 patches 1 triangles 4", "cut 0 1", "tries 1:1", "patches 1"]),
    ("body 1", ["body 1 84"]),
    ("open 2", ["open 2"]),
    ("view 2 2 2 104 100 10 100", ["view 2"]),
    ("frame 2", ["frame 2 1 nodes 1 patches 1 triangles 2 open 4", "cut 0", "tries", "patches 0",
                 "0 0 0 4 0 0 4 4 0", "0 0 0 4 4 0 0 4 0"]),
    ("free 1", ["free 1 1"]),
    ("body 1", ["refused 47"]),
    ("close 2", ["close 2 0"]),
    ("close 1", ["close 1 0"]),
    ("status", ["tier 0 budget 144 load 144 held 2 coming"]),
]


def told_cases():
    """How many of the cases were answered otherwise."""
    wrong = 0
    with Driver(SQUARE, [144], PROGRAM) as live:
        for line, wanted in CASES:
            found = live.ask(line)
            if found != wanted:
                wrong += 1
                print(f"`{line[:60]}` is answered {found} in place of {wanted}")
            if found and found[0].startswith("body "):
                wrong += live.body != body_of(SQUARE.read_bytes(), int(found[0].split()[1]))
        rest, code = live.end()
    if (rest, code) != (b"", 0):
        wrong += 1
        print(f"at the end come {rest} and the code {code}")
    return wrong


def body_of(data, number):
    """The bytes of a patch's body."""
    mesh = Mesh(data)
    start = 16 + 20 * len(mesh.nodes) + 12 * len(mesh.patches) + sum(it.size for it in mesh.patches[:number])
    return data[start:start + mesh.patches[number].size]


def random_line(rng, tiers, patches):
    """A line of any kind; most may be orders that are allowed."""
    number = rng.choice([1, 1, 2, 3, 64])
    kind = rng.choice(["open"] * 2 + ["view"] * 3 + ["show"] * 4 + ["turns"] * 4 + ["body"] * 4 + ["frame"] * 2
                      + ["step"] * 3 + ["turn"] * 2 + ["free", "close", "settle", "status", "blank", "bytes", "broken"])
    if kind == "view":
        return " ".join(map(str, [kind, number, *random_view(rng)])).encode()
    if kind in ("turns", "body", "turn"):
        most = {"turns": 40, "body": patches + 1, "turn": tiers}[kind]
        return f"{kind} {rng.randint(0, most)}".encode()
    if kind == "blank":
        return bytes(rng.choice(b" \t\r") for _ in range(rng.randint(0, 5)))
    if kind == "bytes":
        return bytes(rng.randrange(256) for _ in range(rng.choice([1, 5, 50, 5000]))).replace(b"\n", b"")
    if kind == "broken":
        return rng.choice([b"open", b"show 0", b"view 1 2", b"turns -1", b"body 99999999999", b"sit 1", b"open 1 1"])
    return kind.encode() if kind in ("settle", "status") else f"{kind} {number}".encode()


def as_played(line, answer):
    """The script's lines that do what the line did, and what they print, but for a frame's triangles."""
    word = line.split()[0].decode()
    if word == "turns":
        turns = answer[:-1]
        return [" ".join(it.split()[:2]) for it in turns], turns
    if word in ("show", "frame"):
        head = answer[0].split()
        return [f"frame {head[1]}"], [" ".join(["frame", *head[1:9]]), *answer[1:4]]
    return ([] if word == "body" else [line.decode()]), ([] if word == "body" else answer)


def without_triangles(text):
    """What `play` printed, each frame by its first four lines, and the first without its open edges."""
    lines, kept, at = text.splitlines(), [], 0
    while at < len(lines):
        words = lines[at].split()
        if words[0] == "frame":
            kept += [" ".join(words[:9]), *lines[at + 1:at + 4]]
            at += 4 + int(words[8])
        else:
            kept.append(lines[at])
            at += 1
    return kept


def differs(seed, folder):
    """A run of random lines; whether it isn't as it should be."""
    rng = random.Random(seed)
    data = random_file(rng, rng.choice([2, 3, 6, 20, 40]), rng.choice([1, 2]))
    mesh = Mesh(data)
    budgets, file = random_budgets(rng, mesh), folder / "file.bmtg"
    file.write_bytes(data)
    script, wanted = [], []
    with Driver(file, budgets, PROGRAM) as live:
        for _ in range(LINES_A_RUN):
            line = random_line(rng, len(budgets), len(mesh.patches))
            try:
                answer = live.ask(line)
            except (Late, EOFError) as fault:
                print(f"seed {seed}: {line[:60]} has no answer: {type(fault).__name__}")
                return True
            if not answer or answer[0].startswith("refused "):
                continue
            if answer[0].startswith("body ") and live.body != body_of(data, int(answer[0].split()[1])):
                print(f"seed {seed}: {line} gives other bytes than the file's")
                return True
            orders, lines = as_played(line, answer)
            script += orders
            wanted += lines
        rest, code = live.end()
    played = subprocess.run([PROGRAM, "play", str(file), *map(str, budgets)], input="\n".join([*script, ""]).encode(),
                            capture_output=True, check=True).stdout.decode()
    if (rest, code, without_triangles(played)) == (b"", 0, wanted):
        return False
    print(f"seed {seed}: code {code}, or `play` prints another text")
    return True


def main():
    numbers = [int(word) for word in sys.argv[1:]]
    lines, first = [*numbers, *[LINES, 1][len(numbers):]]
    if not is_fresh():
        return 1
    wrong, runs = told_cases(), -(-lines // LINES_A_RUN)
    with tempfile.TemporaryDirectory() as folder:
        wrong += sum(differs(seed, pathlib.Path(folder)) for seed in range(first, first + runs))
    print(f"{len(CASES)} lines and {runs * LINES_A_RUN} random ones to `live`, {wrong} faults")
    return wrong > 0


if __name__ == "__main__":
    sys.exit(main())
