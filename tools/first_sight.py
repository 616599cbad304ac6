#!/usr/bin/env python3
"""Runs README's four lines of "To see a mesh": what they install, the importer's build, an import, and the page.

The first is only tried out (`apt-get -s`), since it changes the machine. The importer is built in a folder of its own,
the mesh is a sphere made here, and of the page it is seen that it answers. Where a package is missing a line says so,
and the rest is left out. The program is the one that `rt ci` built.
"""
import math
import os
import pathlib
import re
import shutil
import subprocess
import sys
import tempfile
import urllib.request

from readme_runs import PROGRAM, TOP, is_fresh

HEAD = "## To see a mesh"
DEBIAN = "/usr/bin/python3"  # has Debian's packages, also where another Python comes first
QUIET = {"stdout": subprocess.PIPE, "stderr": subprocess.STDOUT, "text": True}


def sphere(rings, parts):
    """A closed mesh as OBJ."""
    points = [(0, 0, 1000)]
    for ring in range(1, rings):
        tilt = math.pi * ring / rings
        points += [(1000 * math.sin(tilt) * math.cos(turn), 1000 * math.sin(tilt) * math.sin(turn), 1000 * math.cos(tilt))
                   for turn in (2 * math.pi * part / parts for part in range(parts))]
    points.append((0, 0, -1000))
    at = lambda ring, part: 2 + (ring - 1) * parts + part % parts  # noqa: E731
    faces = [(1, at(1, part), at(1, part + 1)) for part in range(parts)]
    for ring in range(1, rings - 1):
        for part in range(parts):
            a, b, c, d = at(ring, part), at(ring + 1, part), at(ring + 1, part + 1), at(ring, part + 1)
            faces += [(a, b, c), (a, c, d)]
    faces += [(len(points), at(rings - 1, part + 1), at(rings - 1, part)) for part in range(parts)]
    return "".join([*(f"v {x} {y} {z}\n" for x, y, z in points), *(f"f {a} {b} {c}\n" for a, b, c in faces)])


def shown_lines():
    text = (TOP / "README.md").read_text().split(HEAD)[1].split("\n## ")[0]
    return [line.strip() for line in text.splitlines() if line.startswith("    ")]


def skipped(why):
    print(f"first sight: skipped, {why}")
    return 0


def page_answers(line, mesh):
    """Whether the page of the line that opens it is there."""
    words = line.replace("--open mesh.bmtg", str(mesh)).split()
    words = [DEBIAN, str(TOP / words[0]), *words[1:], "--port", "0", "--program", str(PROGRAM)]
    server = subprocess.Popen(words, cwd=TOP, stdout=subprocess.PIPE, stderr=subprocess.DEVNULL, text=True)
    try:
        address = re.search(r"http://\S+", server.stdout.readline())[0]
        with urllib.request.urlopen(address, timeout=20) as page:
            return b"<canvas" in page.read()
    finally:
        server.kill()
        server.wait()


def main():
    install, build, to_import, to_open = shown_lines()
    if not is_fresh():
        return 1
    if not shutil.which("apt-get") or not shutil.which("cmake"):
        return skipped("since there is no apt-get or no cmake")
    if subprocess.run(install.replace("apt-get install", "apt-get -s install").split(), **QUIET).returncode != 0:
        return skipped("since the packages aren't known here")
    if subprocess.run([DEBIAN, "-c", "import aiohttp"], **QUIET).returncode != 0:
        return skipped("since there is no aiohttp")
    with tempfile.TemporaryDirectory() as name:
        folder = pathlib.Path(name)
        (folder / "mesh.obj").write_text(sphere(40, 80))
        prepare, make = build.replace("tools/import/out", name).split(" && ")
        if subprocess.run(prepare.split(), cwd=TOP, **QUIET).returncode != 0:
            return skipped("since the importer's libraries aren't there")
        subprocess.run([*make.split(), str(os.cpu_count() or 1)], cwd=TOP, check=True, **QUIET)
        words = to_import.replace("tools/import/out", name).split()
        subprocess.run(words, cwd=folder, check=True, **QUIET)
        told = subprocess.run([PROGRAM, "check", folder / "mesh.bmtg"], check=True, **QUIET).stdout
        shows = page_answers(to_open, folder / "mesh.bmtg")
    print(f"first sight: the four lines run; the sphere is {told.split()[0]}, the page {'is there' if shows else 'is not there'}")
    return 0 if told.startswith("accepted ") and shows else 1


if __name__ == "__main__":
    sys.exit(main())
