#!/usr/bin/env python3
"""Plays random scripts over random files, and compares each text with that of play_text.py.

    random_plays.py [RUNS [SEED]]

The program is the one that `rt ci` built. A run that differs is named by its seed, and its file, words and script are
left in a folder.
"""

import pathlib
import random
import subprocess
import sys
import tempfile

from play_text import play_text
from patch_files import Mesh
from random_files import random_file
from readme_runs import PROGRAM, is_fresh

RUNS = 200
MOST_SESSIONS = 4


def random_budgets(rng, mesh):
    """One budget for each of one to four tiers; the first holds the base."""
    base = sum(mesh.patches[p].size for p in mesh.base)
    all_patches = sum(patch.size for patch in mesh.patches)
    room = (all_patches - base) // rng.choice([1, 2, 4, 8])
    return [base + rng.randint(0, room)] + [rng.randint(0, room) for _ in range(rng.choice([0, 0, 0, 1, 1, 2, 3]))]


def random_view(rng):
    eye = [rng.randint(-200, 200) for _ in range(3)]
    return [*eye, rng.randint(1, 300), rng.choice([1, 1, 400, 4000]), rng.choice([0, 20, 60, 4294967295])]


def random_script(rng, tiers):
    sessions, lines = {}, []
    settles = rng.choice([0, 1, 4])
    for _ in range(rng.randint(0, 150)):
        number = rng.randint(1, MOST_SESSIONS)
        orders = ["turn"] * 10 + ["settle"] * settles + ["status"]
        if number not in sessions:
            orders += ["open"] * 4
        else:
            orders += ["view"] * 2 + ["free", "close"]
            orders += (["step"] * 8 + ["frame"] * 4) if sessions[number] else ["view"] * 4
        order = rng.choice(orders)
        words = {"turn": [rng.choice([0, rng.randrange(tiers)])], "settle": [], "status": []}.get(order, [number])
        if order == "view":
            words += random_view(rng)
        if order in ("open", "view"):
            sessions[number] = order == "view"
        elif order == "close":
            del sessions[number]
        lines.append(" ".join(map(str, [order, *words])))
    return "".join(line + "\n" for line in lines)


def differs(seed, folder):
    """The run of this seed; whether its text isn't the one that is wanted."""
    rng = random.Random(seed)
    data = random_file(rng, rng.choice([2, 3, 4, 6, 10, 20, 40]), rng.choice([1, 1, 2]))
    budgets = random_budgets(rng, Mesh(data))
    width = rng.choice([1, 1, 2, 3, 8])
    script = random_script(rng, len(budgets))
    file = folder / "file.bmtg"
    file.write_bytes(data)
    words = ["playw", str(file), str(width), *map(str, budgets)]
    ran = subprocess.run([PROGRAM, *words], input=script.encode(), capture_output=True, timeout=60)
    if (ran.returncode, ran.stdout.decode()) == (0, play_text(data, budgets, width, script)):
        return False
    kept = pathlib.Path(tempfile.mkdtemp(prefix=f"play{seed}_"))
    (kept / "file.bmtg").write_bytes(data)
    (kept / "words.txt").write_text(" ".join(words) + "\n")
    (kept / "script.txt").write_text(script)
    print(f"seed {seed}: code {ran.returncode}, another text; {kept} has the run")
    return True


def main():
    numbers = [int(word) for word in sys.argv[1:]]
    runs, first = [*numbers, *[RUNS, 1][len(numbers) :]]
    if not is_fresh():
        return 1
    with tempfile.TemporaryDirectory() as folder:
        wrong = sum(differs(seed, pathlib.Path(folder)) for seed in range(first, first + runs))
    print(f"{runs} random plays, {wrong} with another text")
    return wrong > 0


if __name__ == "__main__":
    sys.exit(main())
