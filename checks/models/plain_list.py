"""A set as a plain list of its elements, with commits, aborts and lives."""


def is_live(element, moment):
    return element[2] is None or element[2] > moment


class Plain:
    """A set by the definition: elements of a number, an id and an expiry, or none, in order of insertion."""

    def __init__(self, size):
        self.size, self.now, self.generation = size, 0, 0
        self.open, self.next = [], 0
        self.base, self.kept = [], 0

    def live(self, n):
        return next((e for e in self.open if e[0] == n and is_live(e, self.now)), None)

    def add(self, n, life):
        """The reason of a refusal, or none."""
        there = self.live(n)
        if there:
            if life:
                there[2] = self.now + life
            return None
        if self.size is not None and len(self.open) >= self.size:
            return "full"
        self.open.append([n, self.next, self.now + life if life else None])
        self.next += 1
        return None

    def remove(self, n):
        there = self.live(n)
        if there is None:
            return "missing"
        self.open.remove(there)
        return None

    def commit(self):
        count = len(self.open)
        self.open = [e for e in self.open if is_live(e, self.now)]
        self.base, self.kept = [list(e) for e in self.open], self.next
        self.generation += 1
        return f"commit generation {self.generation} purged {count - len(self.open)}"

    def abort(self):
        self.open, self.next = [list(e) for e in self.base], self.kept
        return f"abort generation {self.generation}"

    def answer(self, n, moment):
        found = next((e for e in self.base if e[0] == n and is_live(e, moment)), None)
        return f"generation {self.generation} " + (f"element {found[1]}" if found else "none")
