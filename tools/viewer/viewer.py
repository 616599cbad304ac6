#!/usr/bin/python3
"""Shows a patch file in the browser, by the command `live` of the program and a page on the local address.

The page isn't proved; what it shows are the core's frames (README.md).
"""
import argparse
import asyncio
import pathlib
import shlex
import signal
import sys
import webbrowser

from conductor import Conductor
from core_process import Core, CoreEnded

TOP = pathlib.Path(__file__).resolve().parent.parent.parent
MOST_TIERS = 4


def read_words():
    parser = argparse.ArgumentParser(description=__doc__.splitlines()[0])
    parser.add_argument("file", metavar="FILE", help="a patch file (.bmtg)")
    parser.add_argument("--budget", metavar="BYTES", type=int, nargs="+", default=[256 << 20],
                        help="the budgets of one to four tiers, that of the top first (one of 268435456)")
    parser.add_argument("--port", type=int, default=8321, help="the port on 127.0.0.1 (8321); 0 takes any")
    parser.add_argument("--program", default=shlex.quote(str(TOP / "jichallay")),
                        help="the words that start the program (the launcher)")
    parser.add_argument("--open", action="store_true", help="opens the page in the browser")
    words = parser.parse_args()
    if len(words.budget) > MOST_TIERS:
        parser.error(f"there are at most {MOST_TIERS} tiers")
    return words


async def serve(words):
    # Here, so that `--help` needs no packages.
    from aiohttp import web
    from page_server import PageServer

    path = pathlib.Path(words.file).resolve()
    core = await Core.start([*shlex.split(words.program), "live", path, *words.budget])
    server = PageServer(Conductor(core, words.budget, path))
    runner = web.AppRunner(server.app)
    await runner.setup()
    ended = asyncio.Event()
    for number in (signal.SIGINT, signal.SIGTERM):
        asyncio.get_running_loop().add_signal_handler(number, ended.set)
    conducting = asyncio.create_task(server.conduct())
    try:
        site = web.TCPSite(runner, "127.0.0.1", words.port)
        await site.start()
        address = f"http://127.0.0.1:{runner.addresses[0][1]}/"
        print(f"viewer: {path.name} on {address}", flush=True)
        if words.open:
            webbrowser.open(address)
        await ended.wait()
    finally:
        conducting.cancel()
        await server.close()
        await runner.cleanup()
        await core.end()


def main():
    words = read_words()
    try:
        asyncio.run(serve(words))
    except ImportError as fault:
        sys.exit(f"viewer: {fault}; on Debian `apt-get install python3-aiohttp` has it")
    except (OSError, CoreEnded) as fault:
        sys.exit(f"viewer: {fault}")


if __name__ == "__main__":
    main()
