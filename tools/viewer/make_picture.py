#!/usr/bin/python3
"""Makes docs/pictures/page.png: the page over real heights, as headless Chromium shows it.

    tools/viewer/make_picture.py BMTG_IMPORT

BMTG_IMPORT is the importer's program (tools/import), and the heights are those of tools/make_pictures.py.
"""
import asyncio
import pathlib
import subprocess
import sys
import tempfile

HERE = pathlib.Path(__file__).resolve().parent
sys.path[:0] = [str(HERE / "tests"), str(HERE.parent)]
from browser import chromium
from make_pictures import heights_mesh
from serving import find_program, served
from readme_runs import TOP

BUDGETS = (1_500_000, 3_000_000)
STEPS = 24
SETTLED = "window.viewer && viewer.frame && viewer.status && viewer.status.settled"


async def take(server):
    async with chromium() as browser:
        page = await browser.open(server.address, 1000, 760)
        await page.until(SETTLED)
        # A flight, so that the charts have something to tell.
        for step in range(STEPS):
            await page.value("viewer.camera.orbit(0.02, -0.002); viewer.camera.zoom(0.965); viewer.changed('camera')")
            await asyncio.sleep(1)
        await page.until(SETTLED)
        await asyncio.sleep(1)
        return await page.screenshot()


def main(importer):
    program, why = find_program()
    if why:
        sys.exit(f"make_picture: {why}")
    with tempfile.TemporaryDirectory() as name:
        folder = pathlib.Path(name)
        mesh, file = heights_mesh(folder), folder / "heights.bmtg"
        subprocess.run([importer, "--quiet", "--version", "2", "--triangles", "256", mesh, file], check=True)
        with served(program, file.read_bytes(), *BUDGETS) as server:
            data = asyncio.run(take(server))
    target = TOP / "docs" / "pictures" / "page.png"
    target.write_bytes(data)
    print(f"{target.relative_to(TOP)}: {len(data)} bytes")


if __name__ == "__main__":
    if len(sys.argv) != 2:
        sys.exit(__doc__)
    main(sys.argv[1])
