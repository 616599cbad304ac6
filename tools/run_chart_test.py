#!/usr/bin/env python3
"""Tests of run_chart.py; the last line is `N passed, N failed`. Plain Python, without the viewer."""
import pathlib
import subprocess
import sys
import tempfile
import unittest
import xml.etree.ElementTree

HERE = pathlib.Path(__file__).resolve().parent
SQUARE = HERE.parent / "samples" / "square.bmtg"
FRONT = "cut 0\ntries{}\npatches 0\n"

# Two frames of the tutorial's run with the settling between them, whose loads docs/MODEL.md tells turn by turn.
PLAY = ("open 1\nview 1\nframe 1 1 nodes 1 patches 1 triangles 2 open 4\n" + FRONT.format(" 1:0")
        + "0 0 0 4 0 0 4 4 0\n0 0 0 4 4 0 0 4 0\nturn 0 reserve 1\nturn 0 got 1\nturn 0 commit 1\nturn 0 idle\n"
        "frame 1 2 nodes 2 patches 1 triangles 4 open 4\n" + FRONT.format(" 1:1") + "0 0 0 4 0 0 2 2 0\n" * 4
        + "tier 0 budget 144 load 144 held 2 coming\n")
SERVE = ("serve sessions 1 tiers 1\nsession 1\nopen 1\njournal 0 4\nreserve 1\ngot 1\ncommit 1\nevict 1\nsettled\n"
         "turn 0 idle\nframe 1 1 nodes 1 patches 1 triangles 2 open 4\n" + FRONT.format(" 1:2")
         + "0 0 0 4 0 0 4 4 0\n" * 2)

sys.path.insert(0, str(HERE))
from run_chart import Run, sizes_of


def run_of(text, budgets=(144,)):
    """The run that is read from a text over the square."""
    run = Run(*sizes_of(SQUARE), list(budgets))
    with tempfile.TemporaryFile() as file:
        file.write(text if isinstance(text, bytes) else text.encode())
        file.seek(0)
        run.read(file)
    return run


def chart(text, *words):
    return subprocess.run([sys.executable, HERE / "run_chart.py", *map(str, words)], input=text.encode(),
                          stdout=subprocess.PIPE, stderr=subprocess.PIPE)


class RunChart(unittest.TestCase):
    def test_sizes(self):
        self.assertEqual(sizes_of(SQUARE), ([60, 84], 60))
        self.assertEqual(sizes_of(SQUARE.with_name("square2.bmtg")), ([12 + 24 + 12, 12 + 30 + 24], 48))

    def test_play(self):
        run = run_of(PLAY)
        self.assertEqual(run.tiers[0].loads, [60, 144, 144, 144, 144])
        self.assertEqual((run.tiers[0].fetches, run.tiers[0].evictions), ([2], []))
        self.assertEqual(run.frames, {1: [(2, 1), (4, 0)]})

    def test_serve(self):
        run = run_of(SERVE)
        self.assertEqual(run.tiers[0].loads, [60, 144, 144, 144, 60, 60])
        self.assertEqual((run.tiers[0].evictions, run.frames), ([4], {1: [(2, 1)]}))

    def test_live(self):
        body = b"turn 0 evict 1\n" + bytes(range(45))  # bytes that look like a line are a body's
        text = (b"show 1 1 nodes 1 patches 1 triangles 2\n" + FRONT.format("").encode() + b"body 0 60\n" + body + b"\n"
                b"turn 0 reserve 1\nend\nrefused 47\n")
        run = run_of(text)
        self.assertEqual(len(body), 60)
        self.assertEqual((run.tiers[0].loads, run.frames), ([60, 144], {1: [(2, 0)]}))

    def test_lost_patches_give_their_bytes_back(self):
        for what in ("lost 1", "fault 1", "changed 1 6 120"):
            turns = f"turn 1 reserve 1\nturn 1 got 1\nturn 1 commit 1\nturn 0 reserve 1\nturn 0 {what}\n"
            run = run_of(turns, (144, 84))
            self.assertEqual([tier.loads[-1] for tier in run.tiers], [60, 84])

    def test_picture(self):
        run = chart(PLAY, SQUARE, 144, "--title", "a < b & c")
        self.assertEqual(run.returncode, 0, run.stderr)
        root = xml.etree.ElementTree.fromstring(run.stdout)
        texts = ["".join(it.itertext()) for it in root.iter("{http://www.w3.org/2000/svg}text")]
        for text in ("a < b & c", "Tier 0: load", "budget 144 B", "1 fetched", "0 evicted", "session 1"):
            self.assertIn(text, texts)

    def test_many_turns_make_a_small_picture(self):
        turns = "turn 0 reserve 1\nturn 0 got 1\nturn 0 commit 1\nturn 0 evict 1\n" * 20_000
        run = chart(turns, SQUARE, 144)
        self.assertEqual(run.returncode, 0, run.stderr)
        self.assertLess(len(run.stdout), 200_000)

    def test_what_is_refused(self):
        cases = [("", (SQUARE, 144)), (PLAY, (SQUARE, 200)), (PLAY.replace("load 144", "load 143"), (SQUARE, 144)),
                 ("turn 1 idle\n", (SQUARE, 144)), ("turn 0 reserve 9\n", (SQUARE, 144)),
                 ("turn 0 nonsense 1\n", (SQUARE, 144)),
                 (PLAY, (HERE / "run_chart.py", 144)), (PLAY, ("missing.bmtg", 144))]
        for text, words in cases:
            run = chart(text, *words)
            self.assertEqual((run.returncode, run.stdout), (1, b""))
            self.assertEqual(len(run.stderr.splitlines()), 1, run.stderr)


if __name__ == "__main__":
    result = unittest.TextTestRunner(stream=sys.stdout).run(unittest.defaultTestLoader.loadTestsFromTestCase(RunChart))
    wrong = len(result.failures) + len(result.errors)
    print(f"{result.testsRun - wrong} passed, {wrong} failed")
    sys.exit(1 if wrong else 0)
