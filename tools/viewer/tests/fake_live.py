#!/usr/bin/env python3
"""A stand-in for the command `live` where the program isn't built, over the second body of the core in tools/.

    fake_live.py live FILE B0 [B1 [B2 [B3]]]
"""
import pathlib
import re
import sys

sys.path.insert(0, str(pathlib.Path(__file__).resolve().parents[2]))
from patch_files import tries_line
from play_text import Play

NUMBER = re.compile("0|[1-9][0-9]*")
ALL, EYE, VIEW = (0, 2**32 - 1), (-2097152, 2097152), (1, 65536)
ORDERS = {
    "open": [ALL], "step": [ALL], "frame": [ALL], "free": [ALL], "close": [ALL], "show": [ALL],
    "view": [ALL, EYE, EYE, EYE, VIEW, VIEW, ALL],
    "turn": [ALL], "turns": [ALL], "body": [ALL], "settle": [], "status": [],
}
OF_SESSIONS = {"open", "view", "step", "frame", "free", "close", "show"}
LONGEST = 4096


class FakeLive(Play):
    def __init__(self, data, budgets):
        super().__init__(data, budgets, 1)
        self.data = data
        at = len(data) - sum(patch.size for patch in self.mesh.patches)
        self.starts = []
        for patch in self.mesh.patches:
            self.starts.append(at)
            at += patch.size

    def fault(self, words):
        """Why an order is refused, or None: the fault's number and its arguments without the line's."""
        if any(byte not in b"\t\r" and not 0x20 <= byte <= 0x7E for byte in words.encode("latin-1")):
            return [41]
        order, *numbers = words.split()
        if order not in ORDERS:
            return [42]
        if len(numbers) != len(ORDERS[order]):
            return [43]
        for place, (word, (low, high)) in enumerate(zip(numbers, ORDERS[order])):
            sign = low < 0 and word.startswith("-") and word != "-0"
            if not NUMBER.fullmatch(word[1:] if sign else word) or not low <= int(word) <= high:
                return [44, place + 2]
        return self.order_fault(order, *map(int, numbers))

    def order_fault(self, order, number=0, *_):
        if order in OF_SESSIONS:
            if not 1 <= number <= 64:
                return [45]
            if (order == "open") == (number in self.sessions):
                return [46 if order == "open" else 47]
            if order in ("step", "frame", "show") and self.sessions[number].view is None:
                return [48]
        if order == "turn" and number >= len(self.tiers):
            return [49]
        if order == "body" and not (number in self.mesh.base or any(
                number in session.old or session.round and number in session.round.locked
                for session in self.sessions.values())):
            return [47]
        return None

    def answer(self, line):
        """The bytes of an answer."""
        words = line.decode("latin-1").rstrip("\n")
        if not words.strip(" \t\r"):
            return b""
        fault = [40] if len(words) > LONGEST else self.fault(words)
        if fault:
            return " ".join(map(str, ["refused", *fault])).encode() + b"\n"
        order, *numbers = words.split()
        if order == "body":
            patch = int(numbers[0])
            size = self.mesh.patches[patch].size
            return f"body {patch} {size}\n".encode() + self.data[self.starts[patch]:self.starts[patch] + size] + b"\n"
        lines = {"show": self.show, "turns": self.rounds}.get(order, lambda *all: self.line(order, *all))
        return "".join(f"{text}\n" for text in lines(*map(int, numbers))).encode()

    def show(self, number):
        session = self.sessions[number]
        while session.step() != "done":
            pass
        session.frames += 1
        session.round.is_printed = True
        made = session.round
        patches = self.mesh.frame(made.cut)
        yield (f"show {number} {session.frames} nodes {len(made.cut)} patches {len(patches)}"
               f" triangles {sum(len(self.mesh.patches[p].triangles) for p in patches)}")
        yield " ".join(["cut", *map(str, sorted(made.cut))])
        yield tries_line(made.tries)
        yield " ".join(["patches", *map(str, patches)])

    def rounds(self, count):
        for _ in range(count):
            words = []
            for k in reversed(range(len(self.tiers))):
                word, line = self.turn(k)
                words.append(word)
                yield line
            if set(words) == {"idle"}:
                break
        yield "end"


def main():
    if len(sys.argv) < 4 or sys.argv[1] != "live":
        print("usage", file=sys.stderr)
        return 2
    try:
        data = pathlib.Path(sys.argv[2]).read_bytes()
    except OSError:
        print("read fault", file=sys.stderr)
        return 4
    if data[:4] != b"BMTG":
        print("file 1", file=sys.stderr)
        return 3
    live = FakeLive(data, list(map(int, sys.argv[3:])))
    if live.tiers[0].load > live.tiers[0].budget:
        print(f"budget {live.tiers[0].load} {live.tiers[0].budget}", file=sys.stderr)
        return 7
    for line in sys.stdin.buffer:
        sys.stdout.buffer.write(live.answer(line))
        sys.stdout.buffer.flush()
    return 0


if __name__ == "__main__":
    sys.exit(main())
