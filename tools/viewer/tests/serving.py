"""Starts the viewer's server on a port of its own, with a tap at its core, for one test."""
import asyncio
import contextlib
import os
import pathlib
import re
import shlex
import signal
import subprocess
import sys
import tempfile

HERE = pathlib.Path(__file__).resolve().parent
sys.path[:0] = [str(HERE.parent), str(HERE.parents[1])]
from readme_runs import PROGRAM, TOP, is_fresh
from run_chart import Run, sizes_of

FAKE = [sys.executable, str(HERE / "fake_live.py")]
STARTED = re.compile(r"viewer: .* on (http://[0-9.:]+/)")


def find_program():
    """The words that start the core: the program that `rt ci` built, or else the stand-in, with why that is."""
    if not is_fresh():
        return FAKE, "the program isn't built"
    words = [PROGRAM, "live", TOP / "samples" / "square.bmtg", "144"]
    tried = subprocess.run(words, input=b"status\n", capture_output=True)
    if tried.stdout.startswith(b"tier 0 "):
        return [str(PROGRAM)], None
    return FAKE, "the program has no command `live`"


class Server:
    def __init__(self, process, address, folder, file, budgets):
        self.process, self.address, self.folder, self.file, self.budgets = process, address, folder, file, budgets

    @property
    def socket_address(self):
        return self.address.replace("http", "ws") + "tab"

    def orders(self):
        return (self.folder / "orders").read_text().splitlines()

    async def until_ordered(self, order):
        """Waits until the core was given an order."""
        for _ in range(500):
            if order in self.orders():
                return
            await asyncio.sleep(0.02)
        raise AssertionError(f"`{order}` isn't ordered")

    def frames(self, session):
        """The triangles of a session's frames, one list for each of its views."""
        views, shown = [], self.shown_triangles(session)
        for order in self.orders():
            words = order.split()
            if words[:2] == ["view", str(session)]:
                views.append([])
            elif words == ["show", str(session)]:
                views[-1].append(next(shown))
        return views

    def shown_triangles(self, session):
        with open(self.folder / "answers", "rb") as log:
            for line in log:
                words = line.decode().split()
                if words[0] == "body":
                    log.seek(int(words[2]) + 1, os.SEEK_CUR)
                elif words[:2] == ["show", str(session)]:
                    yield int(words[8])

    def run(self):
        """The run that the answers tell, by the chart's reader: it compares loads with those that `status` tells."""
        run = Run(*sizes_of(self.file), self.budgets)
        with open(self.folder / "answers", "rb") as log:
            run.read(log)
        return run

    def memory(self):
        """The server's bytes in memory now."""
        text = pathlib.Path(f"/proc/{self.process.pid}/status").read_text()
        return 1024 * int(re.search(r"VmRSS:\s+(\d+)", text)[1])

    def child(self):
        """The process that the server started."""
        return int(pathlib.Path(f"/proc/{self.process.pid}/task/{self.process.pid}/children").read_text().split()[0])

    def end(self):
        self.process.send_signal(signal.SIGINT)
        return self.process.wait(20)


@contextlib.contextmanager
def served(program, data, *budgets):
    """A server over a file of these bytes."""
    with tempfile.TemporaryDirectory() as name:
        folder = pathlib.Path(name)
        file = folder / "mesh.bmtg"
        file.write_bytes(data)
        tap = [sys.executable, HERE / "tap.py", folder / "orders", folder / "answers", *program]
        words = [sys.executable, HERE.parent / "viewer.py", file, "--port", "0", "--budget", *budgets,
                 "--program", shlex.join(map(str, tap))]
        process = subprocess.Popen(list(map(str, words)), stdout=subprocess.PIPE, stderr=subprocess.DEVNULL, text=True)
        try:
            started = STARTED.match(process.stdout.readline())
            assert started, "the server doesn't start"
            yield Server(process, started[1], folder, file, list(budgets))
        finally:
            if process.poll() is None:
                process.kill()
            process.wait()
            process.stdout.close()
