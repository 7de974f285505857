"""Generated scripts and key files that go together: drawn from a seed, with sets of all kinds and changes of every verb."""

import collections
import ipaddress
import random

from transcripts import BITS, PROTOCOLS

# where the values of a kind are drawn from: few of them, so that intervals and keys meet
BASE = {"ipv4_addr": 0x0A000000, "ipv6_addr": 0x20010DB8 << 96, "ether_addr": 0x005E00530000, "inet_proto": 0,
        "inet_service": 1000, "mark": 0x100}
NAMES = {number: name for name, number in PROTOCOLS.items()}
FAMILIES = ["", "ip ", "ip6 ", "inet ", "bridge "]

# how many transactions and packets a section has, and how many sections
Scale = collections.namedtuple("Scale", "sections transactions packets runs")
SMALL = Scale((1, 5), (0, 4), (0, 40), 4)
MIDDLE = Scale((1, 4), (3, 20), (100, 2500), 4)
LONG = Scale((2, 2), (100, 150), (40000, 60000), 4)
SCALES = [SMALL] * 32 + [MIDDLE] * 22 + [LONG] * 10


def value_text(rng, kind, value):
    if kind == "ipv4_addr":
        return str(ipaddress.IPv4Address(value))
    if kind == "ipv6_addr":
        address = ipaddress.IPv6Address(value)
        return rng.choice([str(address), address.exploded.upper()])
    if kind == "ether_addr":
        return ":".join(f"{value >> shift & 255:02x}" for shift in range(40, -8, -8))
    if kind == "inet_proto":
        return rng.choice([str(value), NAMES.get(value, str(value))])
    return rng.choice([str(value), f"{value:#x}"]) if kind == "mark" else str(value)


def interval_text(rng, kind, part):
    low, high = part
    if low == high:
        return value_text(rng, kind, low)
    size = high - low + 1
    if size & size - 1 == 0 and low % size == 0 and rng.random() < 0.7:
        return f"{value_text(rng, kind, low)}/{BITS[kind] - size.bit_length() + 1}"
    return f"{value_text(rng, kind, low)}-{value_text(rng, kind, high)}"


class Set:
    """A set of a generated script, and intervals for its elements."""

    def __init__(self, rng, number):
        self.rng = rng
        self.kinds = [rng.choice(list(BITS)) for _ in range(rng.choice([1, 1, 2, 2, 3, 4]))]
        self.ranges = rng.random() < 0.8
        self.expires = rng.random() < 0.5
        self.disjoint = rng.random() < 0.3
        self.family = rng.choice(FAMILIES)
        self.table = rng.choice(["filter", "nat"])
        self.name = f"s{number}"
        self.place = f"{self.family}{self.table} {self.name}"
        # intervals of which no two share a key, and all that were written
        self.known = [self.parts(8 * i + rng.randrange(4), 4) for i in range(rng.randrange(5, 30))]
        self.used = list(self.known)

    def part(self, kind, offset, most):
        low = BASE[kind] + offset
        return low, min(low + (self.rng.randrange(most) if self.ranges else 0), (1 << BITS[kind]) - 1)

    def parts(self, offset, most):
        """Intervals of which the first begins at this offset."""
        others = [self.part(kind, self.rng.randrange(30), 60) for kind in self.kinds[1:]]
        return [self.part(self.kinds[0], offset, most)] + others

    def wild(self):
        """Any intervals, or some that enclose others."""
        if not self.ranges or self.rng.random() < 0.5:
            return self.parts(self.rng.randrange(8 * len(self.known)), 40)
        return [(max(low - 1, 0), min(high + 1, (1 << BITS[kind]) - 1))
                for kind, (low, high) in zip(self.kinds, self.rng.choice(self.known))]

    def text(self, parts):
        return " . ".join(interval_text(self.rng, kind, part) for kind, part in zip(self.kinds, parts))

    def items(self):
        rng = self.rng
        flags = ["interval"] * self.ranges + ["timeout"] * self.expires + ["disjoint"] * self.disjoint
        rng.shuffle(flags)
        items = [f"flags {','.join(flags)}"] * bool(flags)
        items += [f"timeout {rng.randrange(1, 20)}s"] * (self.expires and rng.random() < 0.4)
        items += [f"size {rng.randrange(3, 20)}"] * (rng.random() < 0.2)
        rng.shuffle(items)
        items.insert(0, "type " + " . ".join(self.kinds))
        if rng.random() < 0.8:
            some = rng.sample(self.known, len(self.known) // 2)
            items.append("elements = { " + ", ".join(self.text(parts) for parts in some) + " }")
        return items

    def options(self):
        rng, options = self.rng, []
        if self.expires and rng.random() < 0.6:
            options.append(f"timeout {rng.choice(['never', '0s', '1s', '2s500ms', f'{rng.randrange(9000)}ms'])}")
        if self.expires and rng.random() < 0.2:
            options.append(f"expires {rng.randrange(6000)}ms")
        if rng.random() < 0.2:
            options.append('comment "of { this ; set }"')
        rng.shuffle(options)
        return "".join(" " + option for option in options)

    def key(self):
        rng = self.rng
        key = [rng.randint(low, high + rng.choice([0] * 9 + [1])) for low, high in rng.choice(self.used)]
        return " . ".join(value_text(rng, kind, min(part, (1 << BITS[kind]) - 1)) for kind, part in zip(self.kinds, key))


class Pair:
    """A script and a key file that go together."""

    def __init__(self, seed, number, scale):
        self.rng = rng = random.Random(f"{seed}/{number}")
        self.scale = scale
        self.sets = [Set(rng, number) for number in range(rng.randrange(1, 6))]
        self.now = 0
        self.lines = []
        self.declare()
        self.lines += ["commit"] * (rng.random() < 0.9)
        for section in range(rng.randint(*self.scale.sections)):
            if section > 0:
                self.lines.append("round")
            for _ in range(rng.randint(*self.scale.transactions)):
                self.transaction()
        # a section more or less than the script has
        self.key_lines = []
        for section in range(max(1, rng.choice([-1, 0, 0, 0, 1]) + self.lines.count("round"))):
            if section > 0:
                self.key_lines.append("round")
            self.packets()

    def declare(self):
        rng = self.rng
        for one in self.sets:
            items = one.items()
            if rng.random() < 0.5:
                self.lines += [f"table {one.family}{one.table} {{", f"\tset {one.name} {{", *items, "\t}", "}"]
            else:
                self.lines.append(f"add set {one.place} {{ {' ; '.join(items)} ; }}")

    def transaction(self):
        rng = self.rng
        if rng.random() < 0.4:
            self.now += rng.randrange(2000)
            self.lines.append(f"at {self.now}")
        tame = rng.random() < 0.7
        for _ in range(rng.choice([0, 1, 1, 2, 3] if self.scale is not LONG else [1])):
            self.change(rng.choice(self.sets), tame)
        self.lines += rng.choice([["commit"]] * 7 + [["abort"]] * 2 + [[]])

    def change(self, one, tame):
        rng = self.rng
        if rng.random() < 0.04:
            self.lines.append(f"flush set {one.place}")
            return
        verb = rng.choice(["add", "add", "destroy"] if tame else ["add", "add", "create", "delete", "destroy"])
        elements = []
        for _ in range(rng.choice([0, 1, 1, 1, 2, 4])):
            if not tame and rng.random() < 0.6:
                one.used.append(one.wild())
            elements.append(one.text(rng.choice(one.known if tame else one.used[-len(one.known):])) + one.options())
        # the lines of elements are told by refusals
        between = rng.choice([", ", ",\n\t", ", # more\n "])
        self.lines.append(f"{verb} element {one.place} {{ {between.join(elements)} }}")

    def packets(self):
        rng = self.rng
        keys = [f"{one.place} {one.key()}" for one in self.sets for _ in range(40)]
        for _ in range(rng.randint(*self.scale.packets)):
            if rng.random() < 10 / self.scale.packets[1]:
                self.key_lines.append(f"at {rng.randrange(self.now + 5000)}")
            self.key_lines.append(rng.choice(keys))

    def script(self):
        """The script, with more than one statement on some lines."""
        text = "# written by checks/models/pairs.py\n"
        for line in self.lines:
            text += line + self.rng.choice(["\n", "\n", "\n", "\n\n", " ; ", " # it goes on\n"])
        return text + "\n"

    def keys(self):
        return "".join(line + "\n" for line in self.key_lines)
