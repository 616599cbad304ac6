#!/usr/bin/env python3
"""Stands between the server and the core, and writes down what both say.

    tap.py ORDERS ANSWERS PROGRAM WORDS ..
"""
import contextlib
import os
import subprocess
import sys
import threading


def main():
    orders, answers, *words = sys.argv[1:]
    core = subprocess.Popen(words, stdin=subprocess.PIPE, stdout=subprocess.PIPE)

    def answer():
        with open(answers, "wb", 0) as log:
            while part := os.read(core.stdout.fileno(), 1 << 16):
                log.write(part)
                sys.stdout.buffer.write(part)
                sys.stdout.buffer.flush()
        # Here, and not where orders end: the core may end by itself.
        os._exit(core.wait())

    threading.Thread(target=answer).start()
    # Where the core has ended before, its answers' end tells it.
    with open(orders, "wb", 0) as log, contextlib.suppress(BrokenPipeError):
        for line in sys.stdin.buffer:
            log.write(line)
            core.stdin.write(line)
            core.stdin.flush()
        core.stdin.close()


if __name__ == "__main__":
    main()
