#!/usr/bin/env python3
"""Tests of the viewer's server, and of its page in headless Chromium.

    tools/viewer/tests/run.py [NAME ..]

It runs the tests whose names have one of these words in them, or all. What the machine has no packages for is left
out, and said.
"""
import importlib.util
import os
import sys
import time

DEBIAN = "/usr/bin/python3"  # has Debian's packages, also where another Python comes first


def main():
    if importlib.util.find_spec("aiohttp") is None:
        if os.path.realpath(sys.executable) != os.path.realpath(DEBIAN) and os.access(DEBIAN, os.X_OK):
            os.execv(DEBIAN, [DEBIAN, *sys.argv])
        print("viewer: all tests are skipped, since there is no aiohttp (`apt-get install python3-aiohttp`)")
        return 0
    import browser
    import serving
    import test_page
    import test_server

    program, why = serving.find_program()
    if why:
        print(f"viewer: {why}, so a stand-in answers")
    tests = list(test_server.TESTS)
    if browser.find_chromium():
        tests += test_page.TESTS + (test_page.LONG if sys.argv[1:] else [])
    else:
        print("viewer: the tests of the page are skipped, since there is no Chromium (`apt-get install chromium`)")
    tests = [test for test in tests if not sys.argv[1:] or any(word in test.__name__ for word in sys.argv[1:])]
    for test in tests:
        begun = time.monotonic()
        test(program)
        print(f"  {test.__name__}: {time.monotonic() - begun:.1f} s", flush=True)
    print(f"viewer: {len(tests)} tests passed")
    return 0


if __name__ == "__main__":
    sys.exit(main())
