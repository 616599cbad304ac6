"""A tab of the browser: its session, its newest camera, which patches it has, and what it is still to be sent."""
import asyncio
import json

# A body that wasn't shown for so long is dropped, and the longest unseen ones before, where there are too many bytes.
KEPT_SECONDS = 30
KEPT_BYTES = 1 << 29
# The ranges of X, Y, Z, FOCAL, TAU and LIMIT (docs/TEXTS.md).
RANGES = [(-2_097_152, 2_097_152)] * 3 + [(1, 65_536)] * 2 + [(0, 4_294_967_295)]


class Tab:
    def __init__(self, session):
        self.session = session
        self.camera, self.stamp = None, None  # the newest one that the core hasn't seen
        self.has_view, self.holds_locks, self.is_frozen = False, False, False
        self.lacks, self.commits_seen, self.shown_at = False, 0, 0.0
        self.in_flight = False  # a frame was sent, and the page hasn't said yet that it has it
        self.last_shown = {}  # of each patch that the page has the time, the longest unseen first
        self.kept_bytes = 0
        self.sent_bodies, self.sent_bytes = 0, 0
        self.outbox = asyncio.Queue()

    def hear(self, message):
        """Takes a message of the page; False where it is none. What is no camera of these ranges is passed over, since
        the core would refuse it."""
        if "camera" in message:
            camera = message["camera"]
            fits = isinstance(camera, list) and len(camera) == len(RANGES) and all(
                type(number) is int and low <= number <= high for number, (low, high) in zip(camera, RANGES))
            if fits:
                self.camera, self.stamp = camera, message.get("stamp")
            return fits
        if "freeze" in message:
            self.is_frozen = message["freeze"] is True
            return True
        if "shown" in message:
            self.in_flight = False
            return True
        return False

    def put(self, message):
        self.outbox.put_nowait(message if isinstance(message, bytes) else json.dumps(message))

    def show(self, patches, sizes, now):
        """The patches that the page lacks, and those that it may drop, once it shows these patches."""
        missing = [patch for patch in patches if patch not in self.last_shown]
        for patch in patches:
            self.last_shown.pop(patch, None)
            self.last_shown[patch] = now
        added = sum(sizes[patch] for patch in missing)
        self.kept_bytes += added
        self.sent_bodies += len(missing)
        self.sent_bytes += added
        dropped = []
        for patch, time in self.last_shown.items():
            if time == now or not (now - time > KEPT_SECONDS or self.kept_bytes > KEPT_BYTES):
                break
            dropped.append(patch)
            self.kept_bytes -= sizes[patch]
        for patch in dropped:
            del self.last_shown[patch]
        return missing, dropped
