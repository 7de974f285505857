"""Which transcripts of a script and a key file are legal, by docs/formats.md and docs/definitions.md alone.

Nothing here is shared with the program. Texts are taken to be in their grammar: what is wrong in one is not told.
"""

import functools
import ipaddress
import re
from collections import namedtuple

BITS = {"ipv4_addr": 32, "ipv6_addr": 128, "ether_addr": 48, "inet_proto": 8, "inet_service": 16, "mark": 32}
PROTOCOLS = {"icmp": 1, "igmp": 2, "tcp": 6, "udp": 17, "dccp": 33, "gre": 47, "esp": 50, "ah": 51, "ipv6-icmp": 58,
             "icmpv6": 58, "sctp": 132, "udplite": 136}
FAMILIES = ("ip", "ip6", "inet", "arp", "bridge", "netdev")
MOST_RULES = 1048576
LAST_ID = (1 << 64) - 1
BATCH = 16


class Illegal(Exception):
    """A transcript that is not legal. The first argument is the rule that it breaks."""


# ---- values

def value(kind, word):
    """The number of a value, or none."""
    try:
        if kind == "ipv4_addr":
            return int(ipaddress.IPv4Address(word))
        if kind == "ipv6_addr":
            return int(ipaddress.IPv6Address(word))
        if kind == "ether_addr":
            groups = word.split(":")
            return sum(int(group, 16) << 8 * (5 - g) for g, group in enumerate(groups)) if len(groups) == 6 else None
        if kind == "inet_proto" and word in PROTOCOLS:
            return PROTOCOLS[word]
        return int(word, 0 if kind == "mark" else 10)
    except ValueError:
        return None


def interval(kind, word):
    """The lowest and the highest value of an interval."""
    alone = value(kind, word)
    if alone is not None:
        return alone, alone
    if "/" in word:
        base, fixed = word.split("/")
        free = (1 << BITS[kind] - int(fixed)) - 1
        low = value(kind, base) & ~free
        return low, low + free
    for dash in (place for place, letter in enumerate(word) if letter == "-"):
        low, high = value(kind, word[:dash]), value(kind, word[dash + 1:])
        if low is not None and high is not None:
            return low, high
    raise ValueError(f"no interval: {word}")


def milliseconds(word):
    if word.isdigit():
        return 1000 * int(word)
    units = {"d": 86400000, "h": 3600000, "m": 60000, "s": 1000, "ms": 1}
    return sum(int(digits) * units[unit] for digits, unit in re.findall(r"(\d+)(ms|[dhms])", word))


# ---- texts

Token = namedtuple("Token", "text line")
TOKEN = re.compile(r'(?P<blank>[ \t\r]+|\\\n|#[^\n]*)|(?P<token>\n|[{},;=*]|"[^"\n]*"|[A-Za-z0-9_.:/-]+)')
BREAKS = ("\n",)
SEPARATORS = ("\n", ";")


def tokens(text):
    found, line, at = [], 1, 0
    while at < len(text):
        match = TOKEN.match(text, at)
        if match is None:
            raise ValueError(f"line {line}: no token: {text[at:at + 20]!r}")
        if match.group("token"):
            found.append(Token(match.group("token"), line))
        line += match.group().count("\n")
        at = match.end()
    return found


class Front:
    """The tokens of a text that are still to be read."""

    def __init__(self, text):
        self.tokens = tokens(text)
        self.at = 0

    def peek(self):
        return self.tokens[self.at].text if self.at < len(self.tokens) else None

    def take(self, wanted=None):
        token = self.tokens[self.at]
        if wanted is not None and token.text != wanted:
            raise ValueError(f"line {token.line}: {token.text!r} in place of {wanted!r}")
        self.at += 1
        return token

    def takes(self, wanted):
        """Takes this token where it stands next."""
        if self.peek() == wanted:
            self.at += 1
            return True
        return False

    def skip(self, these):
        while self.peek() in these:
            self.at += 1

    def place(self):
        """Family, table and set."""
        family = self.take().text if self.peek() in FAMILIES else "ip"
        return family, self.take().text, self.take().text


Declared = namedtuple("Declared", "kinds size life disjoint")
Change = namedtuple("Change", "line set verb parts expiry now comment", defaults=[None])
Flush = namedtuple("Flush", "line set")
Commit = namedtuple("Commit", "now")
Abort = namedtuple("Abort", "")
Packet = namedtuple("Packet", "set key now")


class Script:
    """The declared sets, by their names and in their order, and the steps, section by section."""

    def __init__(self, text):
        self.sets = {}
        self.sections = [[]]
        self.now = 0
        self.front = Front(text)
        self.front.skip(SEPARATORS)
        while self.front.peek() is not None:
            self.statement()
            self.front.skip(SEPARATORS)
        self.close()

    def step(self, step):
        self.sections[-1].append(step)

    def close(self):
        """Commits a transaction that has a change."""
        if self.sections[-1] and isinstance(self.sections[-1][-1], (Change, Flush)):
            self.step(Commit(self.now))

    def statement(self):
        front = self.front
        word = front.take()
        if word.text == "table":
            family = front.take().text if front.peek() in FAMILIES else "ip"
            self.blocks(family, front.take().text)
        elif word.text == "flush" and front.takes("set"):
            self.step(Flush(word.line, front.place()))
        elif word.text == "flush":
            front.take("ruleset")
        elif word.text == "at":
            self.now = int(front.take().text)
        elif word.text == "commit":
            self.step(Commit(self.now))
        elif word.text == "abort":
            self.step(Abort())
        elif word.text == "round":
            self.close()
            self.sections.append([])
        elif front.takes("element"):
            place = front.place()
            self.elements(word.text, place, self.sets[place])
        elif front.takes("set"):
            self.items(front.place())
        else:
            front.take("table")
            family = front.take() if front.peek() in FAMILIES else "ip"
            front.take()

    def blocks(self, family, table):
        front = self.front
        front.take("{")
        front.skip(SEPARATORS)
        while not front.takes("}"):
            front.take("set")
            self.items((family, table, front.take().text))
            front.skip(SEPARATORS)

    def items(self, place):
        """What stands between a set's braces. The set is declared by its type, for the elements behind it."""
        front = self.front
        kinds, flags, size, life = [], [], None, 0
        front.take("{")
        front.skip(SEPARATORS)
        while not front.takes("}"):
            item = front.take().text
            if item == "type":
                kinds.append(front.take().text)
                while front.takes("."):
                    kinds.append(front.take().text)
            elif item == "flags":
                flags.append(front.take().text)
                while front.takes(","):
                    flags.append(front.take().text)
            elif item == "timeout":
                life = milliseconds(front.take().text)
            elif item == "size":
                size = int(front.take().text)
            elif item == "elements":
                front.take("=")
                self.elements("add", place, Declared(kinds, size, life, "disjoint" in flags))
            else:
                front.take()
            front.skip(SEPARATORS)
        self.sets[place] = Declared(kinds, size, life, "disjoint" in flags)

    def elements(self, verb, place, declared):
        front = self.front
        front.take("{")
        front.skip(BREAKS)
        while not front.takes("}"):
            self.element(verb, place, declared)
            front.skip(BREAKS)
            front.takes(",")
            front.skip(BREAKS)

    def element(self, verb, place, declared):
        front = self.front
        parts, line = [], front.tokens[front.at].line
        for kind in declared.kinds:
            if parts:
                front.skip(BREAKS)
                front.take(".")
                front.skip(BREAKS)
            parts.append(interval(kind, front.take().text))
        told = {}
        front.skip(BREAKS)
        while front.peek() in ("timeout", "expires", "comment"):
            option = front.take().text
            front.skip(BREAKS)
            told[option] = front.take().text
            front.skip(BREAKS)
        self.step(Change(line, place, verb, tuple(parts), self.expiry(told, declared), self.now, told.get("comment")))

    def expiry(self, told, declared):
        if "expires" in told:
            return self.now + milliseconds(told["expires"])
        life = declared.life
        if "timeout" in told:
            life = 0 if told["timeout"] == "never" else milliseconds(told["timeout"])
        return self.now + life if life > 0 else None


def packets(text, sets):
    """The packets of a key file, section by section from 1 on."""
    front, sections, now = Front(text), [[]], 0
    front.skip(BREAKS)
    while front.peek() is not None:
        if front.takes("round"):
            sections.append([])
        elif front.takes("at"):
            now = int(front.take().text)
        else:
            place = front.place()
            key = []
            for kind in sets[place].kinds:
                if key:
                    front.take(".")
                key.append(value(kind, front.take().text))
            sections[-1].append(Packet(place, tuple(key), now))
        if front.peek() is not None:
            front.take("\n")
        front.skip(BREAKS)
    return sections


# ---- sets

Element = namedtuple("Element", "id parts expiry")
State = namedtuple("State", "size disjoint elements next_id")
Refused = namedtuple("Refused", "why")


def holds(element, key):
    return all(low <= part <= high for (low, high), part in zip(element.parts, key))


def shares(element, parts):
    """Whether a key lies in both."""
    return all(low <= part[1] and part[0] <= high for (low, high), part in zip(element.parts, parts))


def live(element, now):
    return element.expiry is None or now < element.expiry


def first(state, key, now):
    """The earliest inserted element that is live and holds the key."""
    return next((element for element in state.elements if live(element, now) and holds(element, key)), None)


@functools.lru_cache(maxsize=None)
def block_count(low, high):
    """How many blocks an interval is split into: each the greatest that begins at its place and ends within."""
    count = 0
    while low <= high:
        free = (low & -low).bit_length() - 1 if low else 128
        free = min(free, (high + 1 - low).bit_length() - 1)
        low += 1 << free
        count += 1
    return count


def too_many_rules(state, parts):
    """The first field that would have too many rules, or none."""
    for field, part in enumerate(parts):
        rules = sum(block_count(*element.parts[field]) for element in state.elements)
        if rules + block_count(*part) > MOST_RULES:
            return field
    return None


def replaced(state, element, other):
    return state._replace(elements=tuple(other if one is element else one for one in state.elements))


def add(state, parts, expiry, now):
    """What becomes of a set, and `new`, `there` with the element's id, or a refusal."""
    start = first(state, [low for low, _ in parts], now)
    if start is not None and start.parts == parts:
        if expiry is None:
            return state, ("there", start.id)
        return replaced(state, start, start._replace(expiry=expiry)), ("there", start.id)
    if state.disjoint:
        over = next((element for element in state.elements if live(element, now) and shares(element, parts)), None)
    else:
        over = start or first(state, [high for _, high in parts], now)
    if over is not None:
        return state, Refused(f"overlap {{set}} element {over.id}")
    if state.size is not None and len(state.elements) >= state.size or state.next_id == LAST_ID:
        return state, Refused("full {set}")
    field = too_many_rules(state, parts)
    if field is not None:
        return state, Refused(f"rules {{set}} field {field}")
    grown = state.elements + (Element(state.next_id, parts, expiry),)
    return state._replace(elements=grown, next_id=state.next_id + 1), ("new", state.next_id)


def change(state, verb, parts, expiry, now):
    """What becomes of a set, and a refusal or anything else."""
    if verb == "add":
        return add(state, parts, expiry, now)
    if verb == "create":
        added, answer = add(state, parts, expiry, now)
        if not isinstance(answer, Refused) and answer[0] == "there":
            return state, Refused(f"exists {{set}} element {answer[1]}")
        return added, answer
    found = next((element for element in state.elements if live(element, now) and element.parts == parts), None)
    if found is not None:
        return state._replace(elements=tuple(one for one in state.elements if one is not found)), found.id
    return state, Refused("missing {set}") if verb == "delete" else None


# ---- runs

class History:
    """The generations that a script makes, the control lines of each section, and its last generation."""

    def __init__(self, script, keep_going):
        start = {place: State(declared.size, declared.disjoint, (), 0) for place, declared in script.sets.items()}
        self.keep_going = keep_going
        self.generations = [start]
        self.open = dict(start)
        self.failed = False
        self.lines = []
        self.last = []
        for section in script.sections:
            self.told = []
            for step in section:
                self.step(step)
            self.lines.append(self.told)
            self.last.append(len(self.generations) - 1)
        self.found = {}

    def step(self, step):
        number = len(self.generations) - 1
        if isinstance(step, Change):
            if not self.failed:
                self.change(step)
        elif isinstance(step, Flush):
            if not self.failed:
                self.open[step.set] = self.open[step.set]._replace(elements=())
        elif isinstance(step, Abort):
            self.rewind(f"abort generation {number}")
        elif self.failed:
            self.rewind(f"fail generation {number}")
        else:
            self.commit(number + 1, step.now)

    def change(self, step):
        state, answer = change(self.open[step.set], step.verb, step.parts, step.expiry, step.now)
        if isinstance(answer, Refused):
            self.told.append(f"line {step.line} refused " + answer.why.format(set=" ".join(step.set)))
            self.failed = not self.keep_going
        else:
            self.open[step.set] = state

    def rewind(self, line):
        self.told.append(line)
        self.open = dict(self.generations[-1])
        self.failed = False

    def commit(self, number, now):
        purged = 0
        for place, state in self.open.items():
            left = tuple(element for element in state.elements if live(element, now))
            if len(left) < len(state.elements):
                purged += len(state.elements) - len(left)
                self.open[place] = state._replace(elements=left)
        self.generations.append(dict(self.open))
        self.told.append(f"commit generation {number} purged {purged}")

    def last_after(self, section):
        return self.last[min(section, len(self.last) - 1)]

    def lines_of(self, section):
        return self.lines[section] if section < len(self.lines) else []

    def refuses(self):
        return any(" refused " in line for lines in self.lines for line in lines)

    def verdict(self, generation, packet):
        """The text of the verdict of a generation."""
        state = self.generations[generation][packet.set]
        asked = id(state), packet.key, packet.now
        if asked not in self.found:
            element = first(state, packet.key, packet.now)
            self.found[asked] = "none" if element is None else f"element {element.id}"
        return self.found[asked]


Line = namedtuple("Line", "packet thread generation verdict")
LINE = re.compile(r"packet (0|[1-9]\d*) thread (0|[1-9]\d*) generation (0|[1-9]\d*) (none|element (?:0|[1-9]\d*))")


def packet_line(text):
    match = LINE.fullmatch(text)
    if match is None:
        raise Illegal("lines", f"no packet line: {text!r}")
    return Line(int(match.group(1)), int(match.group(2)), int(match.group(3)), match.group(4))


def section_lines(history, keys, text):
    """The packet lines of a transcript, section by section, whose control lines are those of the history."""
    if text and not text.endswith("\n"):
        raise Illegal("lines", "the last line has no end")
    lines, at, sections = text.split("\n")[:-1], 0, []
    for j in range(max(len(history.lines), len(keys) + 1)):
        told = history.lines_of(j)
        if lines[at:at + len(told)] != told:
            raise Illegal("control", f"section {j}: {lines[at:at + len(told)]} in place of {told}")
        at += len(told)
        count = len(keys[j - 1]) if 1 <= j <= len(keys) else 0
        if j > 0:
            sections.append([packet_line(line) for line in lines[at:at + count]])
            if len(sections[-1]) < count:
                raise Illegal("lines", "a line is missing at the end")
        at += count
    if at < len(lines):
        raise Illegal("lines", f"one more line: {lines[at]!r}")
    return sections


def judge(history, keys, threads, text, status):
    """Refuses a transcript that isn't legal, and gives in how many sections packets have more than one generation."""
    newest, number, mixed = {}, 0, 0
    if status != (1 if history.refuses() else 0):
        raise Illegal("status", f"status {status}")
    for j, lines in enumerate(section_lines(history, keys, text), 1):
        for place, line in enumerate(lines):
            packet = keys[j - 1][place]
            if line.packet != number:
                raise Illegal("lines", f"{line} in the place of packet {number}")
            if line.thread >= threads:
                raise Illegal("thread", f"{line} of {threads} threads")
            if lines[place - place % BATCH].thread != line.thread:
                raise Illegal("batch", f"{line}, and another thread before it in its batch")
            if not history.last_after(j - 1) <= line.generation <= history.last_after(j):
                raise Illegal("generation", f"{line} in section {j}")
            if line.generation < newest.get(line.thread, 0):
                raise Illegal("falls", f"{line}, and generation {newest[line.thread]} before it")
            if line.verdict != history.verdict(line.generation, packet):
                raise Illegal("verdict", f"{line} in place of {history.verdict(line.generation, packet)}")
            newest[line.thread] = line.generation
            number += 1
        mixed += len({line.generation for line in lines}) > 1
    return mixed
