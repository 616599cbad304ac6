#!/usr/bin/env python3
"""Makes the pictures in docs/pictures: of the tutorial's run, of a flight over real heights, and of what two eyes see.

    tools/make_pictures.py BMTG_IMPORT

BMTG_IMPORT is the importer's program (tools/import). The heights are the USGS elevation model
`jacksboro_fault_dem.npz` of Debian's python-matplotlib-data, which are in the public domain; numpy reads them. The
program that plays is that of tools/readme_runs.py.
"""
import math
import pathlib
import subprocess
import sys
import tempfile

from readme_runs import TOP, ran

HEIGHTS = "/usr/share/matplotlib/mpl-data/sample_data/jacksboro_fault_dem.npz"
BUDGETS = ["1000000", "2500000"]
STEPS = 60


def flight():
    """Session 1 flies from west to east, 1,500 m above the middle; session 2 goes round at twice that height, and joins
    for the middle of the flight only. One unit is half a metre."""
    lines = ["open 1"]
    for step in range(STEPS):
        part = step / (STEPS - 1)
        views = {1: (int(-36_000 + 72_000 * part), -6_000, 3_000, 935, 12)}
        if STEPS // 3 <= step < 2 * STEPS // 3:
            if step == STEPS // 3:
                lines.append("open 2")
            angle = 6 * math.pi * part
            views[2] = (int(20_000 * math.cos(angle)), int(20_000 * math.sin(angle)), 6_000, 935, 12)
        if step == 2 * STEPS // 3:
            lines.append("close 2")
        for session, (x, y, z, focal, threshold) in views.items():
            lines += [f"free {session}", f"view {session} {x} {y} {z} {focal} {threshold} 60000"]
        lines += ["settle"] + [f"frame {session}" for session in views]
    return "\n".join(lines + ["status"]).encode() + b"\n"


def chart(text, file, budgets, title, target):
    words = [sys.executable, TOP / "tools" / "run_chart.py", "--title", title, file, *budgets]
    drawn = subprocess.run(words, input=text, stdout=subprocess.PIPE, check=True).stdout
    target.parent.mkdir(exist_ok=True)
    target.write_bytes(drawn)
    print(f"{target.relative_to(TOP)}: {len(drawn)} bytes")


EYES = [("-24000", "-16000"), ("24000", "12000")]


def two_eyes(importer, heights, folder):
    """What two sessions see of the heights at once, each from its place."""
    file, target = folder / "eyes.bmtg", TOP / "docs" / "pictures" / "two_eyes.png"
    subprocess.run([importer, "--quiet", "--version", "2", "--triangles", "64", heights, file], check=True)
    lines = [line for session, (x, y) in enumerate(EYES, 1)
             for line in (f"open {session}", f"view {session} {x} {y} 1500 935 1000 100000")]
    text = ran(["play", str(file), "6000000"], "\n".join([*lines, "settle", "frame 1", "frame 2", ""]).encode())
    words = ["/usr/bin/python3", TOP / "tools" / "frames_picture.py", target]
    subprocess.run([*words, *(word for eye in EYES for word in ("--eye", *eye))], input=text, check=True)


def heights_mesh(folder):
    """The heights as a mesh, in a file of the folder."""
    mesh, heights = folder / "heights.ply", TOP / "tools" / "import" / "heights_to_ply.py"
    subprocess.run(["/usr/bin/python3", heights, "--step", "80", HEIGHTS, mesh], check=True)
    return mesh


def main(importer):
    pictures = TOP / "docs" / "pictures"
    sample = TOP / "samples" / "square.bmtg"
    text = ran(["play", str(sample), "144"], (TOP / "samples" / "two_sessions.txt").read_bytes())
    chart(text, sample, ["144"], "The tutorial's run: play samples/square.bmtg 144", pictures / "example_run.svg")
    with tempfile.TemporaryDirectory() as folder:
        mesh, file = heights_mesh(pathlib.Path(folder)), pathlib.Path(folder) / "heights.bmtg"
        subprocess.run([importer, "--quiet", "--version", "2", "--triangles", "256", mesh, file], check=True)
        two_eyes(importer, mesh, pathlib.Path(folder))
        text = ran(["play", str(file), *BUDGETS], flight())
        chart(text, file, BUDGETS, "A flight over 344 by 403 heights, with a second viewer in its middle third",
              pictures / "terrain_flight.svg")


if __name__ == "__main__":
    if len(sys.argv) != 2:
        sys.exit(__doc__)
    main(sys.argv[1])
