#!/usr/bin/env python3
"""Draws a run as one SVG: the tiers' loads, what they fetch and evict, and each session's frames.

    ./jichallay play FILE B0 [B1 ..] < SCRIPT | tools/run_chart.py FILE B0 [B1 ..] > run.svg

It reads standard input, what `play`, `playw`, `serve`, `servew` or `live` printed over the file with these budgets.
Each tier has a panel by its own turns, and frames one by their numbers. Bytes of patches are taken from the file, since
the text has only their numbers; where a `status` line tells another load the run isn't this file's, and nothing is
drawn. Plain Python, and nothing is proved of it.
"""
import argparse
import pathlib
import struct
import sys

from run_panels import drawing

TURNS = {"reserve": 1, "evict": -1, "lost": -1, "fault": -1, "changed": -1}
OTHERS = {"kept", "got", "commit", "idle"}


class NotThisRun(Exception):
    """The text can't be that of a run over the file and the budgets."""


class Tier:
    """Loads by turn, the first before any, and the turns of fetches and evictions, from 1."""

    def __init__(self, budget, load):
        self.budget, self.loads, self.fetches, self.evictions = budget, [load], [], []

    def turn(self, words, sizes):
        what = words[0]
        if what not in TURNS and what not in OTHERS:
            raise NotThisRun(f"there is no turn `{' '.join(words)}`")
        number = len(self.loads)
        change = TURNS.get(what, 0)
        self.loads.append(self.loads[-1] + (change * sizes[int(words[1])] if change else 0))
        if what == "got":
            self.fetches.append(number)
        elif what == "evict":
            self.evictions.append(number)


class Run:
    """The tiers, and by session its frames as pairs of triangles and refused tries."""

    def __init__(self, sizes, base, budgets):
        self.sizes, self.frames = sizes, {}
        self.tiers = [Tier(budget, base if number == 0 else 0) for number, budget in enumerate(budgets)]

    def tier(self, word):
        if not int(word) < len(self.tiers):
            raise NotThisRun(f"it has a tier {word}, and {len(self.tiers)} budgets are given")
        return self.tiers[int(word)]

    def status(self, words):
        """A line `tier K budget B load L held H coming ..`."""
        tier = self.tier(words[1])
        if (int(words[3]), int(words[5])) != (tier.budget, tier.loads[-1]):
            raise NotThisRun(f"tier {words[1]} has budget {words[3]} and load {words[5]}, "
                             f"and not {tier.budget} and {tier.loads[-1]}")

    def read(self, stream):
        """Goes through the text; what it doesn't know it skips."""
        for line in stream:
            words = line.split()
            if len(words) > 2 and words[0] == b"turn":
                self.tier(words[1]).turn([word.decode() for word in words[2:]], self.sizes)
            elif words and words[0] in (b"frame", b"show") and len(words) >= 9:
                self.frame(words, stream)
            elif len(words) == 3 and words[0] == b"journal":
                for _ in range(int(words[2])):
                    self.tier(words[1]).turn(next(stream, b"").decode().split() or ["nothing"], self.sizes)
            elif len(words) > 6 and words[0] == b"tier":
                self.status(words)
            elif len(words) == 3 and words[0] == b"body":
                stream.read(int(words[2]) + 1)

    def frame(self, words, stream):
        triangles = int(words[8])
        front = [next(stream, b"").split() for _ in range(3)]
        if [line[:1] for line in front] != [[b"cut"], [b"tries"], [b"patches"]]:
            raise NotThisRun("a frame is cut off")
        refused = sum(int(answer.split(b":")[1]) % 2 == 0 for answer in front[1][1:])
        self.frames.setdefault(int(words[1]), []).append((triangles, refused))
        if words[0] == b"frame":
            for _ in range(triangles):
                next(stream, None)


def sizes_of(path):
    """The bytes of each patch's body, and those of the base together (docs/FORMAT.md)."""
    with open(path, "rb") as file:
        magic, version, _, nodes, patches = struct.unpack("<4sHHII", file.read(16))
        if magic != b"BMTG" or version not in (1, 2):
            raise NotThisRun(f"{path} is no patch file")
        file.seek(20 * nodes, 1)
        fields = list(struct.iter_unpack("<2I2H", file.read(12 * patches)))
    point, before = (12, 0) if version == 1 else (6, 12)
    sizes = [before + point * points + 6 * triangles for _, _, points, triangles in fields]
    heads = {head for _, head, _, _ in fields}
    return sizes, sum(size for size, (tail, *_) in zip(sizes, fields) if tail not in heads)


def main():
    parser = argparse.ArgumentParser(description="Draws a run, which it reads from standard input, as one SVG.")
    parser.add_argument("file", metavar="FILE", type=pathlib.Path, help="the patch file of the run")
    parser.add_argument("budgets", metavar="B", type=int, nargs="+", help="its budgets, that of the top first")
    parser.add_argument("--title", default="", help="a line above the chart")
    words = parser.parse_args()
    try:
        run = Run(*sizes_of(words.file), words.budgets)
        run.read(sys.stdin.buffer)
        if not run.frames and all(len(tier.loads) == 1 for tier in run.tiers):
            raise NotThisRun("there is neither a turn nor a frame in it")
        print(drawing(run, words.title or words.file.name))
    except (NotThisRun, OSError, ValueError, IndexError, struct.error) as fault:
        sys.exit(f"run_chart: {fault}")


if __name__ == "__main__":
    main()
