"""Headless Chromium, driven over its debugging port."""
import asyncio
import base64
import contextlib
import itertools
import pathlib
import shutil
import subprocess
import tempfile

import aiohttp

# Pictures are drawn by the processor, so that no graphics card is needed; it is a browser of local pages alone.
FLAGS = ["--headless", "--no-sandbox", "--no-first-run", "--disable-dev-shm-usage", "--remote-debugging-port=0",
         "--use-angle=swiftshader", "--enable-unsafe-swiftshader", "--disable-background-networking",
         "--disable-renderer-backgrounding", "--disable-backgrounding-occluded-windows", "--mute-audio"]
STARTED_WITHIN = 30
ANSWERED_WITHIN = 60


def find_chromium():
    return next(filter(None, map(shutil.which, ["chromium", "chromium-browser", "google-chrome"])), None)


class Page:
    """A tab. `errors` has what its console, its scripts and its requests complained of."""

    def __init__(self, browser, target, session):
        self.browser, self.target, self.session, self.errors = browser, target, session, []

    async def call(self, method, **words):
        return await self.browser.call(method, session=self.session, **words)

    async def value(self, expression):
        answer = await self.call("Runtime.evaluate", expression=expression, returnByValue=True, awaitPromise=True)
        if "exceptionDetails" in answer:
            raise AssertionError(f"{expression}: {answer['exceptionDetails']}")
        return answer["result"].get("value")

    async def until(self, expression, seconds=30):
        """Waits until an expression holds."""
        end = asyncio.get_running_loop().time() + seconds
        while not await self.value(expression):
            if asyncio.get_running_loop().time() > end:
                raise AssertionError(f"`{expression}` doesn't come to hold; the page has {self.errors or 'no errors'}")
            await asyncio.sleep(0.05)

    async def press(self, key, shift=False):
        code = {"modifiers": 8 if shift else 0, "key": key}
        await self.call("Input.dispatchKeyEvent", type="keyDown", **code)
        await self.call("Input.dispatchKeyEvent", type="keyUp", **code)

    async def drag(self, begin, end, button="left"):
        for kind, (x, y), pressed in (("mousePressed", begin, 1), ("mouseMoved", end, 1), ("mouseReleased", end, 0)):
            mask = {"left": 1, "right": 2}[button] * pressed
            await self.call("Input.dispatchMouseEvent", type=kind, x=x, y=y, button=button, buttons=mask, clickCount=1)

    async def screenshot(self):
        return base64.b64decode((await self.call("Page.captureScreenshot", format="png"))["data"])

    async def close(self):
        await self.browser.call("Target.closeTarget", targetId=self.target)

    def hear(self, method, words):
        if method == "Runtime.exceptionThrown":
            details = words["exceptionDetails"]
            self.errors.append(details.get("exception", {}).get("description", details["text"]))
        elif method == "Runtime.consoleAPICalled" and words["type"] in ("error", "warning", "assert"):
            self.errors.append(" ".join(str(it.get("value", it.get("description"))) for it in words["args"]))
        elif method == "Log.entryAdded" and words["entry"]["level"] in ("error", "warning"):
            # The browser itself tells that reading pixels takes long; only this test reads them.
            if "ReadPixels" not in words["entry"]["text"]:
                self.errors.append(words["entry"]["text"])


class Browser:
    def __init__(self, socket):
        self.socket, self.numbers, self.waiting, self.pages = socket, itertools.count(1), {}, {}
        self.hearing = asyncio.create_task(self.hear())

    async def hear(self):
        async for message in self.socket:
            answer = message.json()
            if "id" in answer:
                self.waiting.pop(answer["id"]).set_result(answer)
            elif page := self.pages.get(answer.get("sessionId")):
                page.hear(answer["method"], answer["params"])

    async def call(self, method, session=None, **words):
        number = next(self.numbers)
        found = self.waiting[number] = asyncio.get_running_loop().create_future()
        to = {"sessionId": session} if session else {}
        await self.socket.send_json({"id": number, "method": method, "params": words, **to})
        answer = await asyncio.wait_for(found, ANSWERED_WITHIN)
        if "error" in answer:
            raise AssertionError(f"{method}: {answer['error']}")
        return answer["result"]

    async def open(self, address, width=640, height=480, scale=1):
        # In a window of its own, so that it is drawn while other pages are.
        target = (await self.call("Target.createTarget", url="about:blank", newWindow=True))["targetId"]
        session = (await self.call("Target.attachToTarget", targetId=target, flatten=True))["sessionId"]
        page = self.pages[session] = Page(self, target, session)
        for part in ("Runtime", "Log", "Page"):
            await page.call(f"{part}.enable")
        await page.call("Emulation.setDeviceMetricsOverride", width=width, height=height, deviceScaleFactor=scale,
                        mobile=False)
        await page.call("Page.navigate", url=address)
        await page.until("location.href !== 'about:blank' && document.readyState === 'complete'")
        return page


@contextlib.asynccontextmanager
async def chromium():
    """A browser with a folder of its own, which ends with the test."""
    with tempfile.TemporaryDirectory(ignore_cleanup_errors=True) as folder:
        words = [find_chromium(), *FLAGS, f"--user-data-dir={folder}"]
        process = subprocess.Popen(words, stdout=subprocess.DEVNULL, stderr=subprocess.DEVNULL)
        try:
            address = await debugging_address(pathlib.Path(folder) / "DevToolsActivePort", process)
            async with aiohttp.ClientSession() as client:
                async with client.ws_connect(address, max_msg_size=0) as socket:
                    browser = Browser(socket)
                    yield browser
                    browser.hearing.cancel()
        finally:
            process.terminate()
            process.wait(10)


async def debugging_address(path, process):
    """The browser writes its port and its path into a file once it listens."""
    for _ in range(10 * STARTED_WITHIN):
        if path.is_file() and len(lines := path.read_text().split()) == 2:
            return f"ws://127.0.0.1:{lines[0]}{lines[1]}"
        if process.poll() is not None:
            break
        await asyncio.sleep(0.1)
    raise AssertionError("chromium doesn't start")
