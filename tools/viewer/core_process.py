"""The core: one process of the command `live`, which answers each order before it reads the next (docs/TEXTS.md)."""
import asyncio
import sys

# A line of a frame names each of its patches, of which a file has up to 65,536.
LONGEST_LINE = 4 << 20
# So many orders for bodies are sent before the first is answered. They fit a pipe, so that writing them never waits for
# the core while the core waits for its answers to be read.
ORDERS_AHEAD = 64
ENDS = {
    2: "it doesn't know these words: is the program older than the command `live`, or a budget out of its range?",
    3: "the file isn't accepted (docs/FORMAT.md and docs/MODEL.md tell the fault)",
    4: "the file is missing, or reading it failed",
    5: "its answers couldn't be written",
    7: "the coarsest frame needs more bytes than the first budget gives: NEED GIVEN",
    8: "it has no memory",
    9: "the file changed while it was read",
}


class CoreEnded(Exception):
    """The process ended; the text says why."""


class Refused(Exception):
    """The core refused an order, which changed nothing."""


class Core:
    def __init__(self, process):
        self.process, self.last_words = process, ""
        self.hearing = asyncio.create_task(self.hear())

    @classmethod
    async def start(cls, words, folder=None):
        """`folder` is where the program starts. It is in a group of its own, so that an interrupt at the keyboard
        reaches it by its closed input alone."""
        try:
            pipes = dict.fromkeys(("stdin", "stdout", "stderr"), asyncio.subprocess.PIPE)
            return cls(await asyncio.create_subprocess_exec(*map(str, words), **pipes, cwd=folder, limit=LONGEST_LINE,
                                                            start_new_session=True))
        except OSError as fault:
            raise CoreEnded(f"the core doesn't start: {fault}") from None

    async def hear(self):
        """Keeps the last line of standard error, and passes all of it on."""
        async for line in self.process.stderr:
            self.last_words = line.decode(errors="replace").strip()
            print(self.last_words, file=sys.stderr, flush=True)

    async def send(self, text):
        try:
            self.process.stdin.write(text.encode())
            await self.process.stdin.drain()
        except (BrokenPipeError, ConnectionResetError):
            await self.tell_end()

    async def line(self):
        line = await self.process.stdout.readline()
        if not line.endswith(b"\n"):
            await self.tell_end()
        return line[:-1].decode()

    async def first_line(self, order):
        line = await self.line()
        if line.startswith("refused "):
            raise Refused(f"`{order}` was {line}")
        return line

    async def tell_end(self):
        code = await self.process.wait()
        await self.hearing
        reason = ENDS.get(code, f"code {code}")
        raise CoreEnded(f"the core has ended: {reason}" + (f" — `{self.last_words}`" if self.last_words else ""))

    async def ask(self, order, count=1):
        """The lines of an answer that has so many."""
        await self.send(f"{order}\n")
        return [await self.first_line(order)] + [await self.line() for _ in range(count - 1)]

    async def turns(self, rounds):
        """The words of each turn, without `turn`."""
        order = f"turns {rounds}"
        await self.send(f"{order}\n")
        lines, line = [], await self.first_line(order)
        while line != "end":
            lines.append(line.split()[1:])
            line = await self.line()
        return lines

    async def bodies(self, patches):
        """The bytes of patches that the asking session has locked, or that are of the base."""
        found = []
        for begin in range(0, len(patches), ORDERS_AHEAD):
            some = patches[begin:begin + ORDERS_AHEAD]
            await self.send("".join(f"body {patch}\n" for patch in some))
            found += [await self.body(patch) for patch in some]
        return found

    async def body(self, patch):
        words = (await self.first_line(f"body {patch}")).split()
        try:
            return (await self.process.stdout.readexactly(int(words[2]) + 1))[:-1]
        except asyncio.IncompleteReadError:
            await self.tell_end()

    async def end(self):
        """Closes its input, at whose end it ends by itself; one that doesn't is killed."""
        self.process.stdin.close()
        try:
            await asyncio.wait_for(self.process.wait(), 5)
        except asyncio.TimeoutError:
            self.process.kill()
            await self.process.wait()
        await self.hearing
        return self.process.returncode
