"""Who may ask the core next: a tab that ends or comes, then a tab's camera, then what keeps the caches moving.

The core answers one order at a time, so one task gives them all. Turns come in small portions between the tabs' orders.
"""
import asyncio
import time

from core_process import Refused
from patch_index import PatchIndex
from tab import Tab

MOST_SESSIONS = 64
# While turns run, a frame that lacks something is made anew at most so often.
SHOWN_EVERY = 0.15
TOLD_EVERY = 0.5
# A portion of turns takes about so long: a camera waits no longer than for one portion.
PORTION = 0.006
MOST_ROUNDS = 512
# Bodies are sent in messages of about so many bytes.
MESSAGE_BYTES = 1 << 20


class Conductor:
    def __init__(self, core, budgets, path):
        self.core, self.budgets, self.path, self.index = core, budgets, path, None
        self.tabs, self.opening, self.closing = {}, [], []
        self.wake = asyncio.Event()
        self.rounds = 8
        self.is_settled, self.is_blocked = True, False
        self.commits = 0  # how many patches have come to the top
        self.counts = {"granted": 0, "refused": 0, "fetched": [0] * len(budgets), "faults": 0}
        self.tiers, self.told_at, self.is_told = [], 0.0, False

    def join(self):
        """A tab with a session of its own, or None where all are taken."""
        taken = {*self.tabs, *self.closing}
        free = [number for number in range(1, MOST_SESSIONS + 1) if number not in taken]
        if not free:
            return None
        tab = self.tabs[free[0]] = Tab(free[0])
        self.opening.append(tab)
        self.wake.set()
        return tab

    def leave(self, tab):
        """Its number is taken until the core has closed the session."""
        del self.tabs[tab.session]
        if tab in self.opening:
            self.opening.remove(tab)
        else:
            self.closing.append(tab.session)
        self.wake.set()

    def hear(self, tab, message):
        was_frozen = tab.is_frozen
        if tab.hear(message):
            if was_frozen and not tab.is_frozen:
                self.stir()  # its locks may go now, and make room
            self.wake.set()

    async def run(self):
        """Until the core ends, which it tells by CoreEnded."""
        self.tiers = await self.core.ask("status", len(self.budgets))
        self.index = PatchIndex(self.path)
        while True:
            self.wake.clear()
            if not await self.next_order():
                await self.wake.wait()
            # The core's answers may be there at once, and then nothing else would have had its turn.
            await asyncio.sleep(0)

    async def next_order(self):
        """Does what comes first; False where there is nothing to do."""
        if self.closing:
            await self.core.ask(f"close {self.closing[0]}")
            del self.closing[0]
            self.stir()
        elif self.opening:
            await self.open_session(self.opening.pop(0))
        elif tab := self.next_tab():
            await self.show(tab)
        elif self.is_due():
            await self.tell_status()
        elif not self.is_settled:
            await self.make_turns()
        else:
            return False
        return True

    def stir(self):
        """The views or what may be locked have changed, so there may be something to do for the caches."""
        self.is_settled, self.is_blocked, self.is_told = False, False, False

    async def open_session(self, tab):
        await self.core.ask(f"open {tab.session}")
        tab.put({"hello": {**self.index.summary(), "session": tab.session, "budgets": self.budgets}})
        self.is_told = False

    def next_tab(self):
        """The tab that waits longest of those whose frame is to be made."""
        now = time.monotonic()
        waiting = [tab for tab in self.tabs.values() if self.is_waiting(tab, now)]
        return min(waiting, key=lambda tab: tab.shown_at, default=None)

    def is_waiting(self, tab, now):
        if tab.in_flight or tab.is_frozen or tab in self.opening:
            return False
        if tab.camera is not None:
            return True
        is_stale = tab.lacks and tab.commits_seen != self.commits or not tab.holds_locks
        return tab.has_view and is_stale and (self.is_settled or now - tab.shown_at >= SHOWN_EVERY)

    async def show(self, tab):
        begun, stamp = time.monotonic(), tab.stamp
        if tab.camera is not None:
            numbers, tab.camera = tab.camera, None
            await self.core.ask(" ".join(map(str, ["view", tab.session, *numbers])))
            tab.has_view = True
            self.stir()
        head, cut, tries, patches = await self.core.ask(f"show {tab.session}", 4)
        answered = time.monotonic()
        shown = [int(word) for word in patches.split()[1:]]
        missing, dropped = tab.show(shown, self.index.sizes, answered)
        tab.in_flight, tab.holds_locks, tab.shown_at, tab.commits_seen = True, True, answered, self.commits
        await self.send_bodies(tab, missing)
        answers = [int(word.partition(":")[2]) for word in tries.split()[1:]]
        granted = sum(epoch % 2 for epoch in answers)
        tab.lacks = granted < len(answers)
        self.counts["granted"] += granted
        self.counts["refused"] += len(answers) - granted
        words = head.split()
        tab.put({"frame": {"number": int(words[2]), "stamp": stamp, "nodes": int(words[4]), "triangles": int(words[8]),
                           "patches": shown, "drop": dropped, "granted": granted, "refused": len(answers) - granted,
                           "bodies": len(missing), "sent": tab.sent_bodies, "bytes": tab.sent_bytes,
                           "core": answered - begun, "answered": time.time() - (time.monotonic() - answered)}})
        self.is_told = False

    async def send_bodies(self, tab, missing):
        """They are asked for right behind the frame, whose session has locked them."""
        some, size = [], 0
        for place, patch in enumerate(missing):
            some.append(patch)
            size += self.index.sizes[patch]
            if size >= MESSAGE_BYTES or place + 1 == len(missing):
                bodies = await self.core.bodies(some)
                tab.put(b"".join(map(self.index.record, some, bodies)))
                some, size = [], 0

    async def make_turns(self):
        begun = time.monotonic()
        turns = await self.core.turns(self.rounds)
        taken = time.monotonic() - begun
        if taken > 2 * PORTION:
            self.rounds = max(1, self.rounds // 2)
        elif taken < PORTION / 2:
            self.rounds = min(MOST_ROUNDS, 2 * self.rounds)
        for tier, word, *numbers in turns:
            if word == "got":
                self.counts["fetched"][int(tier)] += self.index.sizes[int(numbers[0])]
            elif word == "commit" and tier == "0":
                self.commits += 1
            elif word == "kept":
                self.is_blocked = True
            elif word in ("fault", "changed"):
                self.counts["faults"] += 1
        self.is_told = False
        if all(turn[1] == "idle" for turn in turns[-len(self.budgets):]):
            await self.rest()

    async def rest(self):
        """All tiers are idle. If patches were in use that should leave, their sessions give them back, and turns go on:
        what a tab shows is on its graphics card, and stays there. Else all is settled, and each tab gets its last
        frame."""
        holding = [tab for tab in self.tabs.values() if tab.holds_locks and not tab.is_frozen]
        if not (self.is_blocked and holding):
            self.is_settled = True
            return
        self.is_blocked = False
        for tab in holding:
            await self.core.ask(f"free {tab.session}")
            tab.holds_locks, tab.shown_at = False, time.monotonic()

    def is_due(self):
        """Whether the numbers of the caches are to be told: now and then while they change, and at the end."""
        return not self.is_told and self.tabs and (self.is_settled or time.monotonic() - self.told_at >= TOLD_EVERY)

    async def tell_status(self):
        self.tiers = await self.core.ask("status", len(self.budgets))
        self.told_at, self.is_told = time.monotonic(), True
        tiers = []
        for words in map(str.split, self.tiers):
            tiers.append({"budget": int(words[3]), "load": int(words[5]), "held": int(words[7]),
                          "coming": len(words) - 9})
        for tab in self.tabs.values():
            # A tab that doesn't keep up misses numbers, not frames.
            if tab.outbox.empty() and tab not in self.opening:
                tab.put({"status": {"tiers": tiers, "sessions": len(self.tabs), "settled": self.is_settled,
                                    **self.counts}})
