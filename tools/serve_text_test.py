#!/usr/bin/env python3
"""Tests of the judge of served texts: lawful ones, each of its faults, and which comes first where two hold."""

import sys
import unittest
from pathlib import Path

from serve_text import first_fault

SAMPLES = Path(__file__).resolve().parent.parent / "samples"
SCRIPT = "open 1\nview 1 2 2 104 100 9 100\nframe 1\n"
BASE = ["cut 0", "tries 1:0", "patches 0", "0 0 0 4 0 0 4 4 0", "0 0 0 4 4 0 0 4 0"]
FAN = ["cut 0 1", "tries 1:1", "patches 1", "0 0 0 4 0 0 2 2 0", "4 0 0 4 4 0 2 2 0", "4 4 0 0 4 0 2 2 0", "0 4 0 0 0 0 2 2 0"]
COARSE = "nodes 1 patches 1 triangles 2 open 4"
FINE = "nodes 2 patches 1 triangles 4 open 4"
HEAD = ["serve sessions 1 tiers 1", "session 1", "open 1", "view 1"]
# nothing can come within 143 bytes
STILL = HEAD + [f"frame 1 1 {COARSE}"] + BASE + ["journal 0 0", "settled", "turn 0 idle", f"frame 1 2 {COARSE}"] + BASE
# with 144 bytes the worker brings patch 1 before the session tries it
REFINED = HEAD + [f"frame 1 1 {FINE}"] + FAN + ["journal 0 3", "reserve 1", "got 1", "commit 1", "settled", "turn 0 idle"]
REFINED += [f"frame 1 2 {FINE}"] + FAN
# no worker turns: what the settling fetches
ALONE = HEAD + [f"frame 1 1 {COARSE}"] + BASE + ["journal 0 0", "settled", "turn 0 reserve 1", "turn 0 got 1", "turn 0 commit 1"]
ALONE += ["turn 0 idle", f"frame 1 2 {FINE}"] + FAN


def with_lines(text, first, count, lines):
    """The text with `count` lines from the first, counted from 1, replaced."""
    return text[: first - 1] + lines + text[first - 1 + count :]


class Judged(unittest.TestCase):
    def judged(self, lines, budgets=(144,), width=1, script=SCRIPT, cut=0, more=""):
        text = "".join(line + "\n" for line in lines)
        data = (SAMPLES / "square.bmtg").read_bytes()
        return first_fault(data, text[: len(text) - cut] + more, script, width, list(budgets))

    def test_lawful_texts(self):
        self.assertIsNone(self.judged(STILL, [143]))
        self.assertIsNone(self.judged(STILL, [143], width=8))
        self.assertIsNone(self.judged(REFINED))
        self.assertIsNone(self.judged(ALONE))
        self.assertIsNone(self.judged(["serve sessions 0 tiers 2", "journal 0 0", "journal 1 0", "settled", "turn 1 idle", "turn 0 idle"], [144, 0], script=""))

    def test_a_session_that_frees_and_closes(self):
        script = SCRIPT + "free 1\nframe 1\nclose 1\n"
        lines = REFINED[:12] + ["free 1 1", f"frame 1 2 {FINE}"] + FAN + ["close 1 1"] + REFINED[12:18]
        self.assertIsNone(self.judged(lines, script=script))
        self.assertEqual(self.judged(with_lines(lines, 13, 1, ["free 1 0"]), script=script), ["Differs", 13])

    def test_short_and_long(self):
        self.assertEqual(self.judged(STILL, [143], cut=1), ["Short", 19])
        self.assertEqual(self.judged(STILL, [143], more="\n"), ["Long", 20])
        self.assertEqual(self.judged(STILL[:5], [143]), ["Short", 7])
        self.assertEqual(self.judged([], [143]), ["Short", 1])

    def test_rounds(self):
        self.assertEqual(self.judged(with_lines(STILL, 7, 1, ["tries"]), [143]), ["Round", 7])
        self.assertEqual(self.judged(with_lines(STILL, 7, 1, ["tries 1:0 1:0"]), [143]), ["Round", 7])
        self.assertEqual(self.judged(with_lines(STILL, 7, 1, ["tries 0:0"]), [143]), ["Round", 7])
        self.assertEqual(self.judged(with_lines(STILL, 7, 1, ["tries 1:1"]), [143]), ["Differs", 5])

    def test_spelling(self):
        for tries in ("tries 1:00", "tries 2:0", "tries 1", "tries ", "tries 1:4294967296", "try 1:0"):
            self.assertEqual(self.judged(with_lines(STILL, 7, 1, [tries]), [143]), ["Spelling", 7])
        for entry in ("kept 1 1", "idle", "reserve 2", "reserve 1 1", "changed 1 15", "changed 1 2 65536"):
            self.assertEqual(self.judged(with_lines(REFINED, 14, 1, [entry])), ["Spelling", 14])
        self.assertEqual(self.judged(with_lines(ALONE, 14, 1, ["turn 0 lost 1"])), ["Spelling", 14])

    def test_epochs(self):
        lines = with_lines(STILL, 5, 6, [f"frame 1 1 {FINE}"] + FAN)
        self.assertEqual(self.judged(lines, [143]), ["Invented", 7, 1])
        lines = REFINED[:12] + [f"frame 1 2 {COARSE}"] + BASE + REFINED[12:]
        self.assertEqual(self.judged(lines, script=SCRIPT + "frame 1\n"), ["Falls", 15, 1])

    def test_journals(self):
        self.assertEqual(self.judged(with_lines(STILL, 11, 1, ["journal 0 1", "commit 1"]), [143]), ["Journal", 12])
        self.assertEqual(self.judged(with_lines(STILL, 11, 1, ["journal 0 1", "reserve 1"]), [143]), ["Load", 12])
        self.assertEqual(self.judged(with_lines(REFINED, 13, 1, ["journal 1 3"])), ["Differs", 13])
        self.assertEqual(self.judged(with_lines(REFINED, 14, 1, ["evict 0"])), ["Journal", 14])
        self.assertEqual(self.judged(with_lines(STILL, 11, 1, ["journal 1 4294967294"]), [143]), ["Count", 11])

    def test_settlings(self):
        self.assertEqual(self.judged(with_lines(ALONE, 13, 1, ["turn 0 idle"])), ["Differs", 13])
        fault = ALONE[:13] + ["turn 0 fault 1", "turn 0 idle", f"frame 1 2 {COARSE}"] + BASE
        self.assertIsNone(self.judged(fault))
        changed = with_lines(fault, 14, 1, ["turn 0 changed 1 12 1 3 5"])
        self.assertIsNone(self.judged(changed))
        self.assertEqual(self.judged(with_lines(ALONE, 14, 1, ["turn 0 got 0"])), ["Differs", 14])

    def test_every_prefix_is_short_and_every_line_counts(self):
        text = "".join(line + "\n" for line in REFINED)
        for length in range(len(text)):
            self.assertEqual(self.judged(REFINED, cut=len(text) - length)[0], "Short")
        for line in range(1, len(REFINED) + 1):
            self.assertIsNotNone(self.judged(with_lines(REFINED, line, 1, [])))
            self.assertIsNotNone(self.judged(with_lines(REFINED, line, 0, [REFINED[line - 1]])))


if __name__ == "__main__":
    sys.exit(not unittest.main(exit=False).result.wasSuccessful())
