#!/usr/bin/env python3
"""Builds the importer in a folder of its own and runs its tests; the last line is `N passed, N failed`.

    tools/import/tests/run.py [WORD ..]

With words only tests whose names have one of them are run. The importer is the one that BMTG_IMPORT names, or is built
anew; the checker is the one that BMTG_CHECKER names, or the program that the gate built. Where a package is missing
that a test needs, a line says what is skipped.
"""
import os
import pathlib
import shutil
import subprocess
import sys
import tempfile
import unittest

HERE = pathlib.Path(__file__).resolve().parent
TOP = HERE.parent.parent.parent
TO_TEXT = {"stdout": subprocess.PIPE, "stderr": subprocess.STDOUT, "text": True}


def built(folder):
    """Builds the importer in the folder by README's line, or says what is missing and returns None."""
    if not shutil.which("cmake") or not shutil.which("c++"):
        print("tools/import: skipped, since there is no cmake or no C++ compiler")
        return None
    line = next(line for line in (HERE.parent / "README.md").read_text().splitlines() if "cmake -S" in line)
    prepare, build = line.strip().replace("tools/import/out", folder).split(" && ")
    if subprocess.run(prepare.split(), cwd=TOP, **TO_TEXT).returncode != 0:
        print("tools/import: skipped, since libassimp-dev or libmeshoptimizer-dev isn't there")
        return None
    run = subprocess.run([*build.split(), "2"], cwd=TOP, **TO_TEXT)
    if run.returncode != 0:
        sys.exit(run.stdout + "tools/import: it doesn't build")
    return pathlib.Path(folder) / "bmtg-import"


def run_tests(words):
    loader = unittest.TestLoader()
    loader.testNamePatterns = [f"*{word}*" for word in words] or None
    tests = loader.discover(str(HERE), top_level_dir=str(HERE))
    result = unittest.TextTestRunner(stream=sys.stdout, verbosity=1).run(tests)
    wrong = {str(test).split(" [")[0] for test, _ in result.failures + result.errors}
    for test, why in result.skipped:
        print(f"skipped: {test}: {why}")
    passed = result.testsRun - len(wrong) - len(result.skipped)
    print(f"{passed} passed, {len(wrong)} failed")
    return 1 if wrong or passed <= 0 else 0


def main():
    with tempfile.TemporaryDirectory() as folder:
        if "BMTG_IMPORT" not in os.environ:
            importer = built(folder)
            if importer is None:
                return 0
            os.environ["BMTG_IMPORT"] = str(importer)
        return run_tests(sys.argv[1:])


if __name__ == "__main__":
    sys.exit(main())
