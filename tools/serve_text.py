#!/usr/bin/env python3
"""Judges the text of a served script: `serve_text.py FILE TEXT SCRIPT W B0 [B1 [B2 [B3]]]` writes `yes`, or the first fault.

It shares nothing with the program: it is written from docs/FORMAT.md, docs/MODEL.md and docs/TEXTS.md alone, so that a
text of the program and its reader are compared. A fault is a word and its numbers, a line of the text and perhaps a patch:

Short, Long       the text ends within a line that is due; it goes on behind the last
Spelling          a line with a free part isn't spelt as it should be
Differs           a line that follows from what stands before is another
Round, Falls      the answers of a `tries` line are no whole round; an epoch is below an earlier one of its session
Journal, Load     an entry can't come there; the load behind it passes the budget
Count             a journal is said to have 4,294,967,294 entries or more
Invented          an answer's epoch is above what the top tier's journal brings about
"""

import re
import sys
from collections import Counter
from dataclasses import dataclass, field

from patch_files import Mesh, View, tries_line
from tier_states import Tier

WORDS = ("reserve", "evict", "got", "lost", "fault", "changed", "commit")
# the types of a file fault's arguments, in bits
FAULT_ARGUMENTS = {1: [], 2: [16], 3: [], 4: [32], 5: [32], 6: [64], 7: [64], 8: [32], 9: [32], 10: [32], 11: [32, 32]}
FAULT_ARGUMENTS |= {12: [32, 32, 32], 13: [32, 32], 14: [32, 32]}


class Fault(Exception):
    def __init__(self, word, line, patch=None):
        super().__init__(word, line, patch)
        self.words = [word, line] if patch is None else [word, line, patch]


@dataclass
class Session:
    view: View = None
    frames: int = 0
    locks: int = 0
    is_open: bool = False
    epochs: dict = field(default_factory=dict)  # the last of each patch that was tried


def number(word, bits):
    """The number that a word spells, or None."""
    if not re.fullmatch("0|[1-9][0-9]*", word) or int(word) >= 2**bits:
        return None
    return int(word)


def patch_of(word, mesh):
    patch = number(word, 32)
    return patch if patch is not None and patch < len(mesh.patches) else None


def is_change(words):
    numbers = [number(word, 64) for word in words]
    if not words or None in numbers or numbers[0] not in FAULT_ARGUMENTS:
        return False
    bits = FAULT_ARGUMENTS[numbers[0]]
    return len(bits) == len(words) - 1 and all(n < 2**b for n, b in zip(numbers[1:], bits))


def entry_of(words, mesh, allowed):
    """The word and the patch of an entry, or None where it isn't spelt so."""
    if len(words) < 2 or words[0] not in allowed or (patch := patch_of(words[1], mesh)) is None:
        return None
    right = is_change(words[2:]) if words[0] == "changed" else len(words) == 2
    return (words[0], patch) if right else None


def tries_of(words, mesh):
    if words[0] != "tries":
        return None
    tries = []
    for word in words[1:]:
        patch, colon, epoch = word.partition(":")
        pair = patch_of(patch, mesh), number(epoch, 32)
        if not colon or None in pair:
            return None
        tries.append(pair)
    return tries


class Text:
    """The text and the place up to which it was judged."""

    def __init__(self, text):
        self.text, self.at, self.line = text, 0, 1

    def due(self, line):
        line += "\n"
        if not self.text.startswith(line, self.at):
            same = next((i for i, c in enumerate(line) if self.text[self.at + i : self.at + i + 1] != c), 0)
            has_feed = "\n" in self.text[self.at + same :]
            raise Fault("Differs" if has_feed else "Short", self.line)
        self.at += len(line)
        self.line += 1

    def ahead(self, lines):
        """The words of the line so many lines on, and its number."""
        at = self.at
        for _ in range(lines):
            at = self.text.find("\n", at) + 1 or len(self.text)
        end = self.text.find("\n", at)
        if end < 0:
            raise Fault("Short", self.line + lines)
        return self.text[at:end].split(" "), self.line + lines


class Judge:
    def __init__(self, mesh, text, script, width, budgets):
        self.mesh, self.text, self.width, self.budgets = mesh, Text(text), width, budgets
        self.lines = [line.split() for line in script.splitlines() if line.split()]
        self.sessions = {int(words[1]): Session() for words in sorted(self.lines, key=lambda w: int(w[1]))}
        self.answers = []  # line, patch, epoch
        self.tiers = [Tier(mesh, b, width, mesh.base if k == 0 else []) for k, b in enumerate(budgets)]
        self.changes = Counter()  # how often a patch came to the top tier or left it

    def judge(self):
        self.text.due(f"serve sessions {len(self.sessions)} tiers {len(self.budgets)}")
        for session in self.sessions:
            self.judge_session(session)
        for k, tier in enumerate(self.tiers):
            self.judge_journal(k, tier)
        epochs = [self.changes[p] + (p in self.mesh.base) for p in range(len(self.mesh.patches))]
        self.text.due("settled")
        self.judge_settling(epochs)
        for session, state in self.sessions.items():
            if state.is_open and state.view:
                cut, tries = self.mesh.round(state.view, lambda p: epochs[p])
                words, line = self.text.ahead(2)
                if " ".join(words) != tries_line(tries):
                    raise Fault("Differs", line)
                self.due_frame(session, state, cut, tries)
        if self.text.at < len(self.text.text):
            raise Fault("Long", self.text.line)
        for line, patch, epoch in self.answers:
            if epoch > self.changes[patch]:
                raise Fault("Invented", line, patch)

    def judge_session(self, session):
        state = self.sessions[session]
        self.text.due(f"session {session}")
        for order, _, *numbers in (words for words in self.lines if int(words[1]) == session):
            if order == "frame":
                self.judge_frame(session, state)
                continue
            unlocks = ""
            if order == "open":
                state.view, state.frames, state.is_open = None, 0, True
            elif order == "view":
                x, y, z, focal, tau, limit = map(int, numbers)
                state.view = View((x, y, z), focal, tau, limit)
            else:
                unlocks, state.locks = f" {state.locks}", 0
                state.is_open = order == "free"
            self.text.due(f"{order} {session}{unlocks}")

    def judge_frame(self, session, state):
        words, line = self.text.ahead(2)
        tries = tries_of(words, self.mesh)
        if tries is None:
            raise Fault("Spelling", line)
        cut = self.whole_round(state.view, tries)
        if cut is None:
            raise Fault("Round", line)
        for patch, epoch in tries:
            if epoch < state.epochs.get(patch, 0):
                raise Fault("Falls", line, patch)
            state.epochs[patch] = epoch
            self.answers.append((line, patch, epoch))
        state.locks = sum(len(self.mesh.outgoing[v]) for v in cut if v != self.mesh.root)
        self.due_frame(session, state, cut, tries)

    def whole_round(self, view, tries):
        left = iter(tries)
        asked = []

        def answer(patch):
            asked.append(patch)
            given = next(left, None)
            return given[1] if given is not None and given[0] == patch else None

        done = self.mesh.round(view, answer)
        return done[0] if done and len(asked) == len(tries) else None

    def due_frame(self, session, state, cut, tries):
        state.frames += 1
        for line in self.mesh.frame_lines(session, state.frames, cut, tries):
            self.text.due(line)

    def judge_journal(self, k, tier):
        words, line = self.text.ahead(0)
        numbers = [number(words[1], 32), number(words[2], 64)] if words[0] == "journal" and len(words) == 3 else [None]
        if None in numbers:
            raise Fault("Spelling", line)
        if numbers[1] >= 2**32 - 2:
            raise Fault("Count", line)
        self.text.due(f"journal {k} {numbers[1]}")
        for _ in range(numbers[1]):
            self.judge_entry(k, tier)

    def judge_entry(self, k, tier):
        words, line = self.text.ahead(0)
        entry = entry_of(words, self.mesh, WORDS)
        if entry is None:
            raise Fault("Spelling", line)
        if not tier.meets_needs(*entry):
            raise Fault("Journal", line)
        tier.enter(*entry)
        if tier.load > tier.budget:
            raise Fault("Load", line)
        if k == 0 and entry[0] in ("commit", "evict"):
            self.changes[entry[1]] += 1
        self.text.due(" ".join(words))

    def judge_settling(self, epochs):
        wishes = [self.wish(patch.tail) for patch in self.mesh.patches]
        for k in reversed(range(len(self.tiers))):
            below = self.tiers[k + 1] if k + 1 < len(self.tiers) else None
            word = None
            while word != "idle":
                told = []
                outcome = lambda patch: self.outcome(k, patch, told)
                word, patch = self.tiers[k].turn(wishes, below, epochs if k == 0 else None, outcome)
                ends = [] if patch is None else [str(patch)]
                self.text.due(" ".join(["turn", str(k), word, *ends, *told]))

    def outcome(self, k, patch, told):
        """What the text says came of a fetch; behind it `told` has the words behind the patch."""
        words, line = self.text.ahead(0)
        numbers = [number(words[1], 32)] if words[0] == "turn" and len(words) >= 4 else [None]
        entry = entry_of(words[2:], self.mesh, ("got", "fault", "changed"))
        if None in numbers or entry is None:
            raise Fault("Spelling", line)
        if numbers[0] != k or entry[1] != patch:
            raise Fault("Differs", line)
        told.extend(words[4:])
        return entry[0]

    def wish(self, node):
        views = [s.view for s in self.sessions.values() if s.is_open and s.view]
        scores = [(self.mesh.score(view, node), view.tau) for view in views]
        return max((score for score, tau in scores if score > tau), default=0)


def first_fault(data, text, script, width, budgets):
    """The words of the first fault, or None where the text is one of the served script."""
    try:
        Judge(Mesh(data), text, script, width, budgets).judge()
    except Fault as fault:
        return fault.words
    return None


def main():
    file, text, script, width, *budgets = sys.argv[1:]
    with open(file, "rb") as data, open(text, encoding="latin-1", newline="") as written, open(script, encoding="ascii") as orders:
        fault = first_fault(data.read(), written.read(), orders.read(), int(width), [int(b) for b in budgets])
    print("yes" if fault is None else " ".join(map(str, fault)))
    return fault is not None


if __name__ == "__main__":
    sys.exit(main())
