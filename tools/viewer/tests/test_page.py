"""The page in headless Chromium."""
import asyncio
import os
import pathlib
import signal
import statistics

from browser import chromium
from hills import hills
from pictures import share_drawn
from serving import served

# The base of 36 tiles has 28,296 bytes, and their fine bodies have 173,448. So neither tier holds what both tabs want.
BUDGETS = (90_000, 120_000)
PANEL = 320  # pixels
SETTLED = "window.viewer && viewer.frame && viewer.status && viewer.status.settled"
# Where the two tabs look: at corners of the mesh, each with an error that leaves out what is far.
CORNERS = ([700, 700, 0], [5500, 5500, 0])
COARSE = 95  # of the slider
# Pictures are kept here where the variable names a folder, for somebody to look at.
KEPT = os.environ.get("VIEWER_PICTURES")


async def picture(page, name, panel=PANEL):
    """Looks whether the picture is empty."""
    data = await page.screenshot()
    if KEPT:
        (pathlib.Path(KEPT) / f"{name}.png").write_bytes(data)
    share = share_drawn(data, panel=panel)
    assert share > 0.03, f"{name}: the picture is empty"


async def look_at(page, target):
    """Moves the camera near a point, and waits for the frame of that view."""
    await page.value("window.before = viewer.frame.stamp")
    await page.value(f"viewer.camera.target = {target}; viewer.camera.distance = 2500; viewer.changed('camera')")
    await page.until("viewer.frame.stamp > before")


async def check_two_tabs(server):
    async with chromium() as browser:
        pages = [await browser.open(server.address) for _ in range(2)]
        for page in pages:
            await page.value(f"document.getElementById('tau').value = {COARSE};"
                             "document.getElementById('tau').dispatchEvent(new Event('input'))")
            await page.until(SETTLED)
        for page, target in zip(pages, CORNERS):
            await look_at(page, target)
        for number, page in enumerate(pages):
            await page.until(SETTLED)
            await picture(page, f"tab{number + 1}")
            assert await page.value("viewer.patches.again") == 0, "a body is sent twice"
        for page in pages:
            assert page.errors == []
            await page.close()
        await server.until_ordered("close 1")
        await server.until_ordered("close 2")


def test_two_tabs(program):
    with served(program, hills(6, 6), *BUDGETS) as server:
        asyncio.run(check_two_tabs(server))
        assert server.end() == 0
        run = server.run()
        for tier in run.tiers:
            assert max(tier.loads) <= tier.budget, "a load is above its budget"
        refused = sum(number for frames in run.frames.values() for _, number in frames)
        assert refused, "the budgets are large enough for both"
        for session in (1, 2):
            views = server.frames(session)
            assert any(frames[-1] > frames[0] for frames in views), "frames don't get finer while turns run"
            print(f"  tab {session}: triangles of the frames by view {views}")


async def check_settings(server):
    async with chromium() as browser:
        page = await browser.open(server.address, 800, 600)
        await page.until(SETTLED)
        before = await page.screenshot()
        for key in "wc":
            await page.press(key)
        await asyncio.sleep(0.3)
        await picture(page, "wire")
        assert await page.screenshot() != before, "keys of the look do nothing"
        stamp = await page.value("viewer.frame.stamp")
        await page.press("ArrowLeft")
        await page.press("ArrowUp", shift=True)
        await page.press("+")
        await page.press("[")
        await page.drag((600, 300), (640, 320))
        await page.drag((600, 300), (620, 320), button="right")
        await page.until(f"viewer.frame.stamp > {stamp}")
        await page.until(SETTLED)
        await check_frozen(server, page)
        await page.press("h")
        await page.until(SETTLED)
        await page.press("p")
        await asyncio.sleep(0.3)
        await picture(page, "folded", panel=0)
        assert page.errors == []


async def check_frozen(server, page):
    await page.press("f")
    await asyncio.sleep(0.3)
    views = sum(order.startswith("view") for order in server.orders())
    frame = await page.value("viewer.frame.number")
    before = await page.screenshot()
    for key in ("ArrowLeft", "ArrowLeft", "-"):
        await page.press(key)
    await asyncio.sleep(0.5)
    await picture(page, "frozen")
    assert await page.screenshot() != before, "the camera doesn't move while the cut is frozen"
    assert sum(order.startswith("view") for order in server.orders()) == views, "a frozen tab tells its camera"
    assert await page.value("viewer.frame.number") == frame
    await page.press("f")
    await page.until(f"viewer.frame.number > {frame}")


def test_settings(program):
    with served(program, hills(6, 6), *BUDGETS) as server:
        asyncio.run(check_settings(server))


async def check_no_cracks(server):
    """Between patches nothing shines through: seen from above, the mesh fills the picture from edge to edge."""
    async with chromium() as browser:
        page = await browser.open(server.address, 640, 480)
        await page.value("document.getElementById('panel').open = false")
        await page.until(SETTLED)
        assert await page.value("viewer.gaps()") > 0, "the ground isn't seen round the mesh, so nothing is measured"
        gaps = 0
        for step in range(12):
            place = f"{{target: [3000.3, 3100.7, 0], pitch: 1.4, distance: 2000.123, yaw: {step / 7}}}"
            await page.value(f"Object.assign(viewer.camera, {place}); viewer.changed('camera')")
            gaps += await page.value("viewer.gaps()")
        assert gaps == 0, f"the ground is seen between patches, in {gaps} pixels"
        assert page.errors == []


def test_no_cracks(program):
    with served(program, hills(6, 6), *BUDGETS) as server:
        asyncio.run(check_no_cracks(server))


async def check_small_screen(server):
    async with chromium() as browser:
        page = await browser.open(server.address, 360, 640)
        await page.until(SETTLED)
        await picture(page, "small", panel=0)
        await check_pinch(page)
        assert not await page.value("document.getElementById('panel').open")
        assert await page.value("document.documentElement.scrollWidth <= 360")
        await page.press("p")
        await asyncio.sleep(0.3)
        await picture(page, "small_panel", panel=0)
        assert page.errors == []


async def check_pinch(page):
    """Two fingers come apart by a factor of two."""
    await page.call("Emulation.setTouchEmulationEnabled", enabled=True, maxTouchPoints=2)
    before = await page.value("viewer.camera.distance")
    for kind, ends in (("touchStart", (300, 350)), ("touchMove", (275, 375)), ("touchEnd", ())):
        points = [{"x": 180, "y": y, "id": finger} for finger, y in enumerate(ends)]
        await page.call("Input.dispatchTouchEvent", type=kind, touchPoints=points)
    await page.until(f"viewer.camera.distance < {0.6 * before}")


def test_small_screen(program):
    with served(program, hills(4, 4), 400_000) as server:
        asyncio.run(check_small_screen(server))


async def check_trouble(server, broken):
    async with chromium() as browser:
        page = await browser.open(server.address)
        await page.until(SETTLED)
        os.kill(server.child(), signal.SIGKILL)
        await page.press("ArrowLeft")
        await page.until("document.getElementById('state').textContent.includes('has ended')")
        page = await browser.open(broken.address)
        await page.until("document.getElementById('state').textContent.includes('`file 1`')")
        assert page.errors == []


def test_trouble(program):
    with served(program, hills(2, 2), 100_000) as server, served(program, b"this is no patch file", 100_000) as broken:
        asyncio.run(check_trouble(server, broken))


async def check_speed(server):
    async with chromium() as browser:
        page = await browser.open(server.address, 640, 480)
        await page.value("document.getElementById('panel').open = false")
        await page.until("window.viewer && viewer.frame?.triangles >= 100000", 60)
        await page.until(SETTLED)
        screen, camera, drawn = [], [], []
        for _ in range(15):
            await page.value("window.before = viewer.frame.stamp;"
                             "viewer.camera.orbit(0.01, 0); viewer.changed('camera')")
            await page.until("viewer.frame.stamp > before && viewer.frame.isDrawn")
            screen.append(await page.value("viewer.times.screen"))
            camera.append(await page.value("viewer.times.camera"))
            drawn.append(await page.value("viewer.timeDrawing()"))
        frame = await page.value("({triangles: viewer.frame.triangles, patches: viewer.frame.patches.length})")
        script, card = (statistics.median(it[name] for it in drawn) for name in ("script", "card"))
        print(f"  {frame['triangles']:,} triangles in {frame['patches']} patches, medians of {len(screen)} moves:"
              f" from the camera to the frame {statistics.median(camera):.0f} ms, from the core's answer to the drawing"
              f" {statistics.median(screen):.0f} ms; a drawing takes the script {script:.1f} ms, and is done after"
              f" {card:.0f} ms where the processor draws")
        assert await page.value("viewer.patches.again") == 0
        assert page.errors == []


def test_speed(program):
    """Tells how long a move takes, and refuses nothing: that is the machine's affair. Each move waits until the picture
    before is drawn; where a processor draws, moves behind one another take longer by that."""
    with served(program, hills(14, 14), 1 << 24) as server:
        asyncio.run(check_speed(server))


async def check_thousand(server):
    async with chromium() as browser:
        page = await browser.open(server.address, 320, 240)
        await page.until(SETTLED)
        for step in range(1300):
            await page.value("window.before = viewer.frame.stamp; viewer.camera.orbit(0.01, 0);"
                             f"viewer.camera.zoom({0.9 if step % 40 < 20 else 1 / 0.9}); viewer.changed('camera')")
            await page.until("viewer.frame.stamp > before")
            if step == 299:
                before = server.memory(), await page.value("viewer.patches.bytes")
        grown = server.memory() - before[0]
        kept = await page.value("viewer.patches.bytes")
        print(f"  after 1,000 more moves the server has {grown / 1e6:+.1f} MB, and the page {kept:,} bytes of patches")
        assert grown < 4e6
        assert await page.value("viewer.patches.again") == 0
        assert page.errors == []


def test_thousand_moves(program):
    with served(program, hills(6, 6), *BUDGETS) as server:
        asyncio.run(check_thousand(server))


# Run only where it is named.
LONG = [test_thousand_moves]
TESTS = [test_two_tabs, test_settings, test_no_cracks, test_small_screen, test_trouble, test_speed]
