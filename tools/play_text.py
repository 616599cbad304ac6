"""The text of a play, by a second body that shares nothing with the program: docs/MODEL.md and docs/TEXTS.md in Python.

It is for small files, and takes the store to give each body that is asked of it.
"""

from dataclasses import dataclass, field

from patch_files import Mesh, View
from tier_states import Tier


@dataclass
class Round:
    """A round on its way: what it still asks, what it was answered, and what it has locked."""

    nodes: list
    cut: set
    triangles: int
    tries: list = field(default_factory=list)
    locked: set = field(default_factory=set)
    asked: list = field(default_factory=list)  # patches of the node that is being tried
    missed: list = field(default_factory=list)  # patches to be given back
    node: int = None
    is_printed: bool = False


class Session:
    def __init__(self, play, number):
        self.play, self.number = play, number
        self.view, self.round, self.frames = None, None, 0
        self.old, self.flight = set(), None

    def set_view(self, view):
        self.end_round()
        self.view = view

    def end_round(self):
        if self.round is not None:
            self.old |= self.round.locked
            self.round = None

    def use(self, patch, uses):
        (self.play.users[patch].add if uses else self.play.users[patch].discard)(self.number)

    def withdraw(self):
        patch, self.flight = self.flight, None
        self.use(patch, False)
        return f"withdraw {patch}"

    def unlock(self):
        patch = min(self.old)
        self.old.remove(patch)
        self.use(patch, False)
        return f"unlock {patch}"

    def step(self):
        if self.flight is not None:
            return self.withdraw()
        if self.round is not None and self.round.is_printed:
            self.end_round()
        if self.old:
            return self.unlock()
        if self.round is None:
            mesh = self.play.mesh
            triangles = sum(len(mesh.patches[p].triangles) for p in mesh.base)
            self.round = Round(mesh.order(self.view), {mesh.root}, triangles)
        return self.ask()

    def ask(self):
        mesh, r = self.play.mesh, self.round
        if r.missed:
            patch = r.missed.pop(0)
            r.locked.remove(patch)
            self.use(patch, False)
            return f"back {patch}"
        while not r.asked and r.nodes:
            r.node = r.nodes.pop(0)
            grown = r.triangles + mesh.gain(r.node)
            if grown <= self.view.limit and all(mesh.patches[p].tail in r.cut for p in mesh.incoming[r.node]):
                r.asked = list(mesh.outgoing[r.node])
        return self.try_lock(r.asked.pop(0)) if r.asked else "done"

    def try_lock(self, patch):
        mesh, r = self.play.mesh, self.round
        epoch = self.play.epochs[patch]
        r.tries.append((patch, epoch))
        self.use(patch, True)
        if epoch % 2 == 0:
            self.flight, r.asked = patch, []
            r.missed = sorted(r.locked & set(mesh.outgoing[r.node]))
            return f"try {patch} {epoch}"
        r.locked.add(patch)
        if not r.asked:
            r.cut.add(r.node)
            r.triangles += mesh.gain(r.node)
        return f"try {patch} {epoch}"

    def frame(self):
        while self.step() != "done":
            pass
        self.frames += 1
        self.round.is_printed = True
        return self.play.mesh.frame_lines(self.number, self.frames, self.round.cut, self.round.tries)

    def free(self):
        """How many locks were given back."""
        self.end_round()
        if self.flight is not None:
            self.withdraw()
        unlocks = len(self.old)
        while self.old:
            self.unlock()
        return unlocks


class Play:
    def __init__(self, data, budgets, width):
        self.mesh = Mesh(data)
        base = self.mesh.base
        self.tiers = [Tier(self.mesh, b, width, base if k == 0 else []) for k, b in enumerate(budgets)]
        self.epochs = [int(p in base) for p in range(len(self.mesh.patches))]
        self.users = [set() for _ in self.mesh.patches]
        self.sessions, self.posted = {}, {}
        self.version, self.versions = 0, [0] * len(budgets)
        self.wishes = [0] * len(self.mesh.patches)

    def post(self, session, view):
        if view is not None:
            self.posted[session] = view
        elif self.posted.pop(session, None) is None:
            return
        self.version += 1
        self.wishes = [self.wish(patch.tail) for patch in self.mesh.patches]

    def wish(self, node):
        scores = [(self.mesh.score(view, node), view.tau) for view in self.posted.values()]
        return max((score for score, tau in scores if score > tau), default=0)

    def turn(self, k):
        tier = self.tiers[k]
        if self.versions[k] != self.version:
            tier.renew()
            self.versions[k] = self.version
        below = self.tiers[k + 1] if k + 1 < len(self.tiers) else None
        epochs = self.epochs if k == 0 else None
        word, patch = tier.turn(self.wishes, below, epochs, lambda p: "got", lambda p: len(self.users[p]))
        ends = [] if patch is None else [patch]
        return word, " ".join(map(str, ["turn", k, word, *ends, *([len(self.users[patch])] if word == "kept" else [])]))

    def settle(self):
        for k in reversed(range(len(self.tiers))):
            word = None
            while word != "idle":
                word, line = self.turn(k)
                yield line

    def status(self):
        for k, tier in enumerate(self.tiers):
            words = ["tier", k, "budget", tier.budget, "load", tier.load, "held", len(tier.held), "coming", *tier.coming]
            yield " ".join(map(str, words))

    def line(self, order, number=None, *numbers):
        """The lines that an order prints."""
        if order == "settle":
            return self.settle()
        if order == "status":
            return self.status()
        if order == "turn":
            return [self.turn(number)[1]]
        if order == "open":
            self.sessions[number] = Session(self, number)
        session = self.sessions[number]
        if order == "view":
            x, y, z, focal, tau, limit = numbers
            session.set_view(View((x, y, z), focal, tau, limit))
            self.post(number, session.view)
        elif order == "step":
            return [f"step {number} {session.step()}"]
        elif order == "frame":
            return session.frame()
        elif order != "open":
            unlocks = session.free()
            if order == "close":
                self.post(number, None)
                del self.sessions[number]
            return [f"{order} {number} {unlocks}"]
        return [f"{order} {number}"]


def play_text(data, budgets, width, script):
    play = Play(data, budgets, width)
    lines = []
    for words in map(str.split, script.splitlines()):
        if words:
            lines += play.line(words[0], *map(int, words[1:]))
    return "".join(line + "\n" for line in lines)
