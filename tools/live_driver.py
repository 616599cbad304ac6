"""A `live` process that is driven over its two pipes, one line at a time; docs/TEXTS.md has the lines and their answers.

    with Driver("mesh.bmtg", [1000000]) as live:
        live.ask("open 1")
        live.ask("view 1 0 0 5000 935 2 100000")
        print(live.ask("show 1")[0])
"""
import os
import select
import subprocess

LIMIT = 10  # seconds that an answer may take
BLANK, MOST_LINE = b" \t\r", 4096


class Late(Exception):
    """An answer didn't come in time."""


class Driver:
    """One run of `live`. `ask` sends a line, and gives its answer's lines, without their line feeds."""

    def __init__(self, file, budgets, program="jichallay"):
        words = [program, "live", str(file), *map(str, budgets)]
        self.process = subprocess.Popen(words, stdin=subprocess.PIPE, stdout=subprocess.PIPE, bufsize=0)
        self.tiers, self.ahead, self.body = len(budgets), b"", b""

    def __enter__(self):
        return self

    def __exit__(self, *_):
        self.process.kill()
        self.process.wait()

    def ask(self, line):
        line = line.encode() if isinstance(line, str) else line
        self.process.stdin.write(line + b"\n")
        if len(line) <= MOST_LINE and not line.strip(BLANK):
            return []
        return self.answer(line)

    def answer(self, line):
        """The lines of the answer to a line that has one. The bytes of a body are kept in `body`."""
        first = self.next_line()
        words, order = first.split(), line.split()
        if words[:1] == ["refused"]:
            return [first]
        if words[0] == "frame":
            return [first] + [self.next_line() for _ in range(3 + int(words[8]))]
        if words[0] == "show":
            return [first] + [self.next_line() for _ in range(3)]
        if words[0] == "body":
            self.body = self.next_bytes(int(words[2]))
            self.next_bytes(1)
            return [first]
        if order[0] == b"status":
            return [first] + [self.next_line() for _ in range(self.tiers - 1)]
        if order[0] == b"turns":
            return self.until(first, "end")
        if order[0] == b"settle":
            return self.until(first, "turn 0 idle")
        return [first]

    def until(self, line, last):
        lines = [line]
        while lines[-1] != last:
            lines.append(self.next_line())
        return lines

    def next_line(self):
        while b"\n" not in self.ahead:
            self.read_more()
        line, _, self.ahead = self.ahead.partition(b"\n")
        return line.decode()

    def next_bytes(self, count):
        while len(self.ahead) < count:
            self.read_more()
        taken, self.ahead = self.ahead[:count], self.ahead[count:]
        return taken

    def read_more(self):
        if not select.select([self.process.stdout], [], [], LIMIT)[0]:
            raise Late
        piece = os.read(self.process.stdout.fileno(), 65536)
        if not piece:
            raise EOFError
        self.ahead += piece

    def end(self):
        """Ends the input; gives what came behind the last answer, and the code."""
        self.process.stdin.close()
        rest = self.ahead + self.process.stdout.read()
        return rest, self.process.wait(LIMIT)
