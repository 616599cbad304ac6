"""The page and its files, and a websocket for each tab, on the local address alone."""
import asyncio
import json
import pathlib

from aiohttp import WSMsgType, web

from conductor import MOST_SESSIONS
from core_process import CoreEnded, Refused

PAGE = pathlib.Path(__file__).resolve().parent / "page"
KINDS = {".html": "text/html", ".css": "text/css", ".js": "text/javascript"}
LOCAL_NAMES = {"127.0.0.1", "localhost"}
# The page takes nothing from elsewhere, and the browser is told to hold it to that.
HEADERS = {
    "Content-Security-Policy": "default-src 'none'; script-src 'self'; style-src 'self'; img-src data:; "
                               "connect-src 'self' ws://127.0.0.1:* ws://localhost:*",
    "Cache-Control": "no-cache",
    "X-Content-Type-Options": "nosniff",
}
LONGEST_MESSAGE = 4096


class PageServer:
    def __init__(self, conductor):
        self.conductor, self.trouble, self.sockets = conductor, None, set()
        self.app = web.Application(middlewares=[only_local])
        self.app.router.add_get("/tab", self.tab)
        self.app.router.add_get("/{name:[a-z_]*[.]?[a-z]*}", self.file)

    async def conduct(self):
        """Runs the conductor to the core's end, and tells all tabs of it; the page is served on, and tells it too."""
        try:
            await self.conductor.run()
        except (CoreEnded, Refused) as fault:
            self.trouble = str(fault)
        except (ValueError, IndexError) as fault:
            self.trouble = f"the core gave an answer that isn't understood: {fault!r}"
        print(f"viewer: {self.trouble}", flush=True)
        await asyncio.gather(*(self.tell_trouble(socket, self.trouble) for socket in [*self.sockets]))

    async def tell_trouble(self, socket, trouble):
        try:
            await socket.send_str(json.dumps({"trouble": trouble}))
            await socket.close()
        except ConnectionError:
            pass

    async def close(self):
        """Ends the tabs' connections, which would hold the server up."""
        await asyncio.gather(*(socket.close() for socket in [*self.sockets]))

    async def file(self, request):
        path = PAGE / (request.match_info["name"] or "index.html")
        if path.suffix not in KINDS or not path.is_file():
            raise web.HTTPNotFound()
        return web.Response(body=path.read_bytes(), content_type=KINDS[path.suffix], charset="utf-8", headers=HEADERS)

    async def tab(self, request):
        # Bodies are sent as they are: to pack them would cost more time than it saves on the local address.
        socket = web.WebSocketResponse(compress=False, max_msg_size=LONGEST_MESSAGE, heartbeat=30)
        await socket.prepare(request)
        tab = None if self.trouble else self.conductor.join()
        if tab is None:
            full = f"{MOST_SESSIONS} tabs are open, and there are no more sessions"
            await self.tell_trouble(socket, self.trouble or full)
            return socket
        self.sockets.add(socket)
        sending = asyncio.create_task(self.send(tab, socket))
        try:
            await self.hear(tab, socket)
        finally:
            sending.cancel()
            self.sockets.discard(socket)
            self.conductor.leave(tab)
        return socket

    async def send(self, tab, socket):
        """Sends what the tab is to have, at the pace at which the socket takes it."""
        try:
            while True:
                message = await tab.outbox.get()
                await (socket.send_bytes if isinstance(message, bytes) else socket.send_str)(message)
        except ConnectionError:
            pass

    async def hear(self, tab, socket):
        async for message in socket:
            if message.type != WSMsgType.TEXT:
                continue
            try:
                heard = json.loads(message.data)
            except ValueError:
                continue
            if isinstance(heard, dict):
                self.conductor.hear(tab, heard)


@web.middleware
async def only_local(request, handler):
    """Refuses what another site's page asks by this browser: its name of the host is another one, or its origin."""
    host = request.host
    origin = request.headers.get("Origin", f"http://{host}")
    if host.partition(":")[0] not in LOCAL_NAMES or origin != f"http://{host}":
        raise web.HTTPForbidden()
    return await handler(request)
