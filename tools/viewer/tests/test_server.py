"""The server without a browser: a tab is a websocket here."""
import asyncio
import os
import signal
import struct

import aiohttp

from hills import hills
from serving import served
from patch_index import PatchIndex
from tab import KEPT_BYTES, KEPT_SECONDS, Tab

BUDGETS = (40_000, 60_000)
VIEW = [2000, 2000, 3000, 9350, 20, 500_000]
ANSWERED_WITHIN = 20


class FakeTab:
    """What a page does: it keeps the bodies, tells which frame it has, and complains of a body that it had."""

    def __init__(self, socket):
        self.socket, self.bodies, self.stamp = socket, {}, 0

    async def next(self, kind):
        """The next message of a kind."""
        while True:
            message = await self.socket.receive(ANSWERED_WITHIN)
            if message.type == aiohttp.WSMsgType.BINARY:
                self.take(message.data)
                continue
            assert message.type == aiohttp.WSMsgType.TEXT, f"{message.type} instead of `{kind}`"
            heard = message.json()
            if frame := heard.get("frame"):
                await self.show(frame)
            if kind in heard:
                return heard[kind]

    def take(self, data):
        at = 0
        while at < len(data):
            patch, size = struct.unpack_from("<II", data, at)
            assert patch not in self.bodies, f"patch {patch} comes though the tab has it"
            self.bodies[patch] = data[at + 16:at + 16 + size]
            at += 16 + -(-size // 4) * 4

    async def show(self, frame):
        for patch in frame["drop"]:
            del self.bodies[patch]
        assert set(frame["patches"]) <= set(self.bodies), "a frame comes before its bodies"
        await self.socket.send_json({"shown": frame["number"]})

    async def look(self, camera):
        """Sends a camera, and waits for its frame."""
        self.stamp += 1
        await self.socket.send_json({"camera": camera, "stamp": self.stamp})
        while (frame := await self.next("frame"))["stamp"] != self.stamp:
            pass
        return frame


async def settled(tab):
    while not (status := await tab.next("status"))["settled"]:
        pass
    return status


def test_frames_and_bodies(program):
    async def check(server):
        index, data = PatchIndex(server.file), server.file.read_bytes()
        starts = [len(data) - sum(index.sizes[patch:]) for patch in range(len(index.sizes))]
        async with aiohttp.ClientSession() as client, client.ws_connect(server.socket_address) as socket:
            tab = FakeTab(socket)
            assert (await tab.next("hello"))["session"] == 1
            first = await tab.look(VIEW)
            status = await settled(tab)
            assert [tier["budget"] for tier in status["tiers"]] == list(BUDGETS)
            last = await tab.look(VIEW)
            assert last["triangles"] > first["triangles"], "frames don't get finer"
            for patch, body in tab.bodies.items():
                assert body == data[starts[patch]:starts[patch] + index.sizes[patch]], f"body {patch} is another one"
            for wrong in ({"camera": [0, 0, 0, 0, 0, 0]}, {"camera": "x"}, {"camera": VIEW[:5]}, {"x": 1}, [], 5):
                await socket.send_json(wrong)
            assert await tab.look(VIEW)
        await server.until_ordered("close 1")
        assert not [order for order in server.orders() if order.startswith("view 1 0 0 0 0")]

    with served(program, hills(5, 4), *BUDGETS) as server:
        asyncio.run(check(server))
        assert server.end() == 0
        for tier in server.run().tiers:
            assert max(tier.loads) <= tier.budget


def test_only_64_sessions(program):
    async def check(server):
        async with aiohttp.ClientSession() as client:
            sockets = [await client.ws_connect(server.socket_address) for _ in range(64)]
            for number, socket in enumerate(sockets):
                assert (await socket.receive_json())["hello"]["session"] == number + 1
            async with client.ws_connect(server.socket_address) as late:
                assert "64 tabs" in (await late.receive_json())["trouble"]
            await sockets[9].close()
            await server.until_ordered("close 10")
            async with client.ws_connect(server.socket_address) as next_one:
                assert (await next_one.receive_json())["hello"]["session"] == 10
            for socket in sockets:
                await socket.close()

    with served(program, hills(2, 2), 100_000) as server:
        asyncio.run(check(server))
        assert server.end() == 0


def test_strangers_are_refused(program):
    async def check(server):
        async with aiohttp.ClientSession() as client:
            async def code(path, **headers):
                async with client.get(server.address + path, headers=headers) as answer:
                    return answer.status

            assert await code("") == 200 and await code("main.js") == 200
            assert await code("viewer.py") == 404 and await code("page_server.py") == 404
            assert await code("tab", Origin="http://elsewhere.example") == 403
            assert await code("", Host="elsewhere.example") == 403

    with served(program, hills(2, 2), 100_000) as server:
        asyncio.run(check(server))


def test_trouble_is_told(program):
    async def trouble(server):
        async with aiohttp.ClientSession() as client, client.ws_connect(server.socket_address) as socket:
            return await FakeTab(socket).next("trouble")

    with served(program, b"no patch file at all", 100_000) as server:
        assert "`file 1`" in asyncio.run(trouble(server))
    with served(program, hills(2, 2), 1) as server:
        assert "`budget " in asyncio.run(trouble(server))

    async def killed(server):
        async with aiohttp.ClientSession() as client, client.ws_connect(server.socket_address) as socket:
            tab = FakeTab(socket)
            await tab.next("hello")
            os.kill(server.child(), signal.SIGKILL)
            await socket.send_json({"camera": VIEW})
            return await tab.next("trouble")

    with served(program, hills(2, 2), 100_000) as server:
        assert "has ended" in asyncio.run(killed(server))


def test_old_bodies_are_dropped(_):
    sizes, tab = [1000] * 6, Tab(1)
    assert tab.show([0, 1, 2], sizes, 10.0) == ([0, 1, 2], [])
    assert tab.show([0, 3], sizes, 11.0) == ([3], [])
    assert tab.show([0, 4], sizes, 10.5 + KEPT_SECONDS) == ([4], [1, 2])
    assert tab.show([0, 1], sizes, 11.5 + KEPT_SECONDS) == ([1], [3])
    assert (tab.kept_bytes, tab.sent_bodies) == (3000, 6)
    large = [KEPT_BYTES // 2] * 6
    tab = Tab(1)
    assert tab.show([0, 1], large, 1.0) == ([0, 1], [])
    assert tab.show([1, 2], large, 2.0) == ([2], [0])
    assert tab.show([0, 1, 2, 3], large, 3.0) == ([0, 3], []), "what is shown isn't dropped"


def test_memory_stays(program):
    async def check(server):
        async with aiohttp.ClientSession() as client, client.ws_connect(server.socket_address) as socket:
            tab = FakeTab(socket)
            await tab.next("hello")
            moved = [[200 * (step % 25), 160 * (step % 17), 1500, 9350, 20, 500_000] for step in range(25 * 17)]
            for step in range(1300):
                await tab.look(moved[step % len(moved)])
                if step == 299:
                    before = server.memory()
            return server.memory() - before

    with served(program, hills(5, 4), *BUDGETS) as server:
        grown = asyncio.run(check(server))
        print(f"  after 1,000 more camera moves the server has {grown / 1e6:+.1f} MB")
        assert grown < 4e6


TESTS = [test_frames_and_bodies, test_only_64_sessions, test_strangers_are_refused, test_trouble_is_told,
         test_old_bodies_are_dropped, test_memory_stays]
