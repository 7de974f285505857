"""What `explain` writes of a script and a key file, by docs/formats.md alone. Texts are taken to be in their grammar."""

import ipaddress

from transcripts import PROTOCOLS, History, Script, holds, live, packets

BITS_OF_ADDRESS = {"ipv4_addr": 32, "ipv6_addr": 128}
NAMES = {number: name for name, number in reversed(PROTOCOLS.items())}
MOST_OTHERS = 8


# ---- texts

def value_text(kind, value):
    if kind == "ipv4_addr":
        return str(ipaddress.IPv4Address(value))
    if kind == "ipv6_addr":
        return str(ipaddress.IPv6Address(value))
    if kind == "ether_addr":
        return ":".join(f"{value >> shift & 255:02x}" for shift in range(40, -8, -8))
    if kind == "inet_proto":
        return NAMES.get(value, str(value))
    return f"{value:#010x}" if kind == "mark" else str(value)


def interval_text(kind, part):
    low, high = part
    if low == high:
        return value_text(kind, low)
    size = high - low + 1
    if kind in BITS_OF_ADDRESS and size & size - 1 == 0 and low % size == 0:
        return f"{value_text(kind, low)}/{BITS_OF_ADDRESS[kind] - size.bit_length() + 1}"
    return f"{value_text(kind, low)}-{value_text(kind, high)}"


def time_text(time):
    parts = [(time // 86400000, "d"), (time // 3600000 % 24, "h"), (time // 60000 % 60, "m"), (time // 1000 % 60, "s"), (time % 1000, "ms")]
    return "".join(f"{count}{unit}" for count, unit in parts if count) or "0s"


# ---- a run that notes which addition made each element

class Noted(History):
    """A history, and the addition that made each element: by the set and the element's id."""

    def __init__(self, script, keep_going):
        self.made = {}
        super().__init__(script, keep_going)

    def change(self, step):
        new = self.open[step.set].next_id
        super().change(step)
        if self.open[step.set].next_id > new:
            self.made[step.set, new] = step


# ---- the explanation

class Explanation:
    """The output and the status for a script and a key file."""

    def __init__(self, script_text, keys_text, keep_going):
        self.script = Script(script_text)
        self.history = Noted(self.script, keep_going)
        self.missed = False
        self.lines = [f"# {line}" for lines in self.history.lines for line in lines if " refused " in line]
        for number, section in enumerate(packets(keys_text, self.script.sets), 1):
            for packet in section:
                self.explain(number, packet)
        self.status = 1 if self.missed or self.history.refuses() else 0

    def text(self):
        return "".join(line + "\n" for line in self.lines)

    def explain(self, section, packet):
        """The lines of a packet of a section."""
        kinds = self.script.sets[packet.set].kinds
        elements = self.history.generations[self.history.last_after(section)][packet.set].elements
        values = [value_text(kind, value) for kind, value in zip(kinds, packet.key)]
        self.lines.append(" ".join(packet.set) + " " + " . ".join(values))
        alive = [element for element in elements if live(element, packet.now)]
        holders = [element for element in alive if holds(element, packet.key)]
        if holders:
            self.hit(packet, holders)
        else:
            self.missed = True
            self.miss(packet, values, elements, alive)

    def tell(self, line):
        self.lines.append("    " + line)

    def element(self, packet, element, comment=""):
        """An element, and the line that added it."""
        kinds, made = self.script.sets[packet.set].kinds, self.history.made[packet.set, element.id]
        text = " . ".join(interval_text(kind, part) for kind, part in zip(kinds, element.parts))
        return f"element {element.id}: {text}{comment} (line {made.line})"

    def hit(self, packet, holders):
        answer = holders[0]
        comment = self.history.made[packet.set, answer.id].comment
        left = f", {time_text(answer.expiry - packet.now)} left" if answer.expiry is not None else ""
        self.tell(self.element(packet, answer, f" comment {comment}" if comment not in (None, '""') else "") + left)
        for other in holders[1:1 + MOST_OTHERS]:
            self.tell("also in " + self.element(packet, other))
        if len(holders) > 1 + MOST_OTHERS:
            self.tell(f"and {len(holders) - 1 - MOST_OTHERS} more")

    def miss(self, packet, values, elements, alive):
        self.tell("no element")
        gone = next((element for element in elements if holds(element, packet.key)), None)
        if gone is not None:
            self.tell(f"expired: {self.element(packet, gone)}, at {time_text(gone.expiry)}")
        if not alive:
            self.tell("the set has no live elements")
            return
        holding = [[low <= value <= high for (low, high), value in zip(element.parts, packet.key)] for element in alive]
        counts = [sum(fields) for fields in zip(*holding)]
        self.tell(f"{values[0]} is in {counts[0]} of {len(alive)} element{'s' * (len(alive) != 1)}"
                  + "".join(f", {value} in {count}" for value, count in zip(values[1:], counts[1:])))
        most = max(map(sum, holding))
        if most > 0:
            place = next(place for place, fields in enumerate(holding) if sum(fields) == most)
            others = " and ".join(value for value, held in zip(values, holding[place]) if not held)
            self.tell(f"nearest: {self.element(packet, alive[place])}, but for {others}")
