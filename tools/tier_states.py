"""A tier of a cache: what its journal leaves, and its turns; docs/MODEL.md has the rules."""


class Tier:
    """Held and coming patches within a budget. A coming patch has a body or none."""

    def __init__(self, mesh, budget, width, base):
        self.mesh, self.budget, self.width = mesh, budget, width
        self.pinned = set(base)
        self.held = set(base)
        self.coming = {}  # in their order
        self.passed, self.aside = set(), set()
        self.load = sum(self.size(p) for p in base)
        self.pinned_bytes = self.load

    def size(self, patch):
        return self.mesh.patches[patch].size

    def renew(self):
        """The views have changed."""
        self.passed.clear()
        self.aside.clear()

    def first_bare(self):
        return next((p for p, has_body in self.coming.items() if not has_body), None)

    def first(self):
        return next(iter(self.coming), None)

    def meets_needs(self, word, patch):
        if word == "reserve":
            return len(self.coming) < self.width and patch not in self.held and patch not in self.coming
        if word in ("got", "lost", "fault", "changed"):
            return self.first_bare() == patch
        if word == "commit":
            return self.first() == patch and self.first_bare() is None
        return patch in self.held and patch not in self.pinned and not self.coming

    def enter(self, word, patch):
        """What an entry of the journal leaves."""
        if word == "reserve":
            self.coming[patch] = False
            self.load += self.size(patch)
        elif word == "got":
            self.coming[patch] = True
        elif word == "commit":
            del self.coming[patch]
            self.held.add(patch)
        elif word == "evict":
            self.held.remove(patch)
            self.load -= self.size(patch)
        else:
            del self.coming[patch]
            self.load -= self.size(patch)

    def candidate(self, wishes, below, epochs):
        """The highest-ranked patch that may come; `below` is None for the lowest tier, `epochs` for all but the top."""
        base = set(self.mesh.base)
        fits = [
            p
            for p, wish in enumerate(wishes)
            if wish > 0
            and p not in base
            and self.size(p) <= self.budget - self.pinned_bytes
            and (below is None or p in below.held)
            and p not in self.held
            and p not in self.coming
            and p not in self.aside
            and (epochs is None or epochs[p] < 2**32 - 2)
        ]
        return max(fits, key=lambda p: (wishes[p], -p), default=None)

    def victim(self, wishes, candidate):
        rank = lambda p: (wishes[p], -p)
        lower = [p for p in self.held - self.pinned - self.passed if rank(p) < rank(candidate)]
        return min(lower, key=rank, default=None)

    def turn(self, wishes, below, epochs, outcome, uses=lambda patch: 0):
        """One turn's word and patch. `outcome(patch)` is what came of a fetch of the store, and `uses(patch)` tells how
        many sessions use it in the top tier."""
        candidate = self.candidate(wishes, below, epochs)
        if candidate is not None and len(self.coming) < self.width and self.load + self.size(candidate) <= self.budget:
            return self.make("reserve", candidate)
        bare = self.first_bare()
        if bare is not None:
            return self.fetch(bare, below, outcome)
        if self.coming:
            return self.make("commit", self.first(), epochs)
        victim = None if candidate is None else self.victim(wishes, candidate)
        if victim is not None and epochs is not None and uses(victim):
            self.passed.add(victim)
            return "kept", victim
        if victim is not None:
            return self.make("evict", victim, epochs)
        self.passed.clear()
        return "idle", None

    def fetch(self, patch, below, outcome):
        if below is None:
            word = outcome(patch)
        else:
            word = "got" if patch in below.held else "lost"
        if word in ("fault", "changed"):
            self.aside.add(patch)
        return self.make(word, patch)

    def make(self, word, patch, epochs=None):
        self.enter(word, patch)
        if epochs is not None:
            epochs[patch] += 1
        return word, patch
