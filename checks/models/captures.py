"""Captures: the forms of headers, a reader of the facts of each frame, and what a plan makes of them.

The reader shares no code with the program.
"""

import ipaddress
import struct

# ---- the forms of headers

MAGIC = {"micro": 0xA1B2C3D4, "nano": 0xA1B23C4D}
ETHERNET, RAW, COOKED, IPV4, IPV6, COOKED_TWO = 1, 101, 113, 228, 229, 276
LINKS = (ETHERNET, RAW, COOKED, IPV4, IPV6, COOKED_TWO)
RAW_TOO = (12, 14)
TCP, UDP, DCCP, SCTP, UDP_LITE = 6, 17, 33, 132, 136
PORTED = (TCP, UDP, DCCP, SCTP, UDP_LITE)
EXTENSIONS = HOP_BY_HOP, ROUTING, FRAGMENT, AUTHENTICATION, DESTINATION = 0, 43, 44, 51, 60


def header(order, unit, link, version=(2, 4)):
    return struct.pack(order + "IHHIIII", MAGIC[unit], version[0], version[1], 0, 0, 65535, link)


def record(order, seconds, fraction, frame, wire=None):
    return struct.pack(order + "IIII", seconds, fraction, len(frame), len(frame) if wire is None else wire) + frame


# ---- the blocks of pcapng

SECTION, INTERFACE, SIMPLE, ENHANCED, STATISTICS = 0x0A0D0D0A, 1, 3, 6, 5


def block(order, kind, body, size=None, copy=None):
    body += bytes(-len(body) % 4)
    size = len(body) + 12 if size is None else size
    return struct.pack(order + "II", kind, size) + body + struct.pack(order + "I", size if copy is None else copy)


def section(order, version=(1, 0), magic=0x1A2B3C4D):
    return block(order, SECTION, struct.pack(order + "IHHq", magic, *version, -1))


def option(order, code, value):
    return struct.pack(order + "HH", code, len(value)) + value + bytes(-len(value) % 4)


def interface(order, link, most=0, options=b""):
    return block(order, INTERFACE, struct.pack(order + "HHI", link, 0, most) + options)


def enhanced(order, number, stamp, frame, kept=None, options=b""):
    return block(order, ENHANCED, struct.pack(order + "IIIII", number, stamp >> 32, stamp & 0xFFFFFFFF,
                                              len(frame) if kept is None else kept, len(frame)) +
                 frame + bytes(-len(frame) % 4) + options)


def simple(order, size, frame):
    return block(order, SIMPLE, struct.pack(order + "I", size) + frame)


def ipv4(source, dest, proto, payload, options=b"", offset=0, more=False, version=4, words=None):
    words = 5 + len(options) // 4 if words is None else words
    flags = (0x2000 if more else 0) | offset
    return struct.pack(">BBHHHBBHII", version * 16 + words, 0, 20 + len(options) + len(payload), 0, flags, 64, proto, 0,
                       source, dest) + options + payload


def ipv6(source, dest, following, payload, version=6):
    return struct.pack(">IHBB", version << 28, len(payload), following, 64) + source.to_bytes(16, "big") + \
        dest.to_bytes(16, "big") + payload


def ports(source, dest, rest=b"\0\0\0\0"):
    return struct.pack(">HH", source, dest) + rest


def ethernet(source, dest, kind, payload, tags=()):
    frame = dest.to_bytes(6, "big") + source.to_bytes(6, "big")
    for tag in tags:
        frame += struct.pack(">HH", tag, 7)
    return frame + struct.pack(">H", kind) + payload


def cooked(kind, payload, tags=(), hardware=1):
    """LINKTYPE_LINUX_SLL: a packet from outside, with a link-layer address of six bytes."""
    frame = struct.pack(">HHH", 0, hardware, 6) + bytes.fromhex("0200000000010000")
    for tag in tags:
        frame += struct.pack(">HH", tag, 7)
    return frame + struct.pack(">H", kind) + payload


def cooked_two(kind, payload, hardware=1):
    """LINKTYPE_LINUX_SLL2, on interface 2."""
    return struct.pack(">HHIHBB", kind, 0, 2, hardware, 0, 6) + bytes.fromhex("0200000000010000") + payload


def extension(kind, following, payload, extra=0, offset=0, more=True):
    """An extension header of IPv6 and what follows it, with so many units after its first 8 bytes."""
    if kind == FRAGMENT:
        return struct.pack(">BBHI", following, 0, offset * 8 + more, 1) + payload
    if kind == AUTHENTICATION:
        return struct.pack(">BBH", following, 2 * extra, 0) + bytes(4 + 8 * extra) + payload
    # options: one PadN over all
    return struct.pack(">BBBB", following, extra, 1, 4 + 8 * extra) + bytes(4 + 8 * extra) + payload


# ---- the reader: the facts of a frame, and the records of a file


class Short(Exception):
    """A byte that is read isn't there."""


def at(frame, place, size):
    if place + size > len(frame):
        raise Short
    return int.from_bytes(frame[place:place + size], "big")


def transport(proto, header):
    """The protocol, and its ports if all four bytes are there."""
    found = {"proto": proto}
    if proto in PORTED and len(header) >= 4:
        found["sport"], found["dport"] = at(header, 0, 2), at(header, 2, 2)
    return found


def ipv4_facts(packet):
    if at(packet, 0, 1) >> 4 != 4:
        return None
    size = 4 * (at(packet, 0, 1) & 15)
    found = {"version": 4, "source": at(packet, 12, 4), "dest": at(packet, 16, 4)}
    if size < 20:
        return None
    first = at(packet, 6, 2) & 0x1FFF == 0
    return found | transport(at(packet, 9, 1), packet[size:] if first else b"")


def chain(proto, rest):
    """What follows the extension headers; nothing if it can't be known."""
    while proto in EXTENSIONS:
        if len(rest) < 8:
            return {}
        if proto == FRAGMENT and rest[2:4] >= b"\0\x08":
            return {} if rest[0] in EXTENSIONS else {"proto": rest[0]}
        size = {FRAGMENT: 8, AUTHENTICATION: 4 * rest[1] + 8}.get(proto, 8 * rest[1] + 8)
        proto, rest = rest[0], rest[size:]
    return transport(proto, rest)


def ipv6_facts(packet):
    if at(packet, 0, 1) >> 4 != 6:
        return None
    found = {"version": 6, "source": at(packet, 8, 16), "dest": at(packet, 24, 16)}
    return found | chain(at(packet, 6, 1), packet[40:])


def typed_facts(kind, rest):
    for _ in range(2):
        if kind in (0x8100, 0x88A8):
            kind, rest = at(rest, 2, 2), rest[4:]
    if kind == 0x0800:
        return ipv4_facts(rest)
    return ipv6_facts(rest) if kind == 0x86DD else None


def frame_facts(link, frame):
    if link == ETHERNET:
        found = typed_facts(at(frame, 12, 2), frame[14:])
        return None if found is None else found | {"ether": (at(frame, 6, 6), at(frame, 0, 6))}
    if link in (COOKED, COOKED_TWO):
        hardware, kind, size = (2, 14, 16) if link == COOKED else (8, 0, 20)
        at(frame, 0, size)
        return None if at(frame, hardware, 2) in (770, 803, 824) else typed_facts(at(frame, kind, 2), frame[size:])
    six = link == IPV6 or link != IPV4 and at(frame, 0, 1) >> 4 == 6
    return ipv6_facts(frame) if six else ipv4_facts(frame)


def facts(link, frame):
    try:
        return frame_facts(link, frame)
    except Short:
        return None


class Fault(Exception):
    """A file that is no capture: the byte and the reason."""


def clock(order, byte, options):
    """The units of a second and the seconds of the time 0."""
    units = offset = None
    while len(options) >= 4:
        code, size = struct.unpack(order + "HH", options[:4])
        if code == 0:
            break
        value, rest = options[4:4 + size], options[4 + size + -size % 4:]
        if len(options) < 4 + size + -size % 4 or code in (9, 14) and size != (1 if code == 9 else 8):
            raise Fault(byte, "options")
        if code == 9:
            found = 10 ** value[0] if value[0] < 128 else 2 ** (value[0] - 128)
            if found >= 1 << 64:
                raise Fault(byte, "options")
            units = found if units is None else units
        elif code == 14 and offset is None:
            offset = struct.unpack(order + "q", value)[0]
        options = rest
    return units or 1000000, offset or 0


class Sections:
    """A file of pcapng, block by block."""

    def __init__(self, data):
        self.data, self.order, self.interfaces = data, "<", []
        self.first, self.moment, self.frames = None, 0, []

    def number(self, place, size=4):
        return int.from_bytes(self.data[place:place + size], "little" if self.order == "<" else "big")

    def header(self, place):
        """The type and the length of the block at a place."""
        if len(self.data) - place < 12:
            raise Fault(place, "cut")
        kind = self.number(place)
        if kind == SECTION:
            magic = self.data[place + 8:place + 12]
            if magic not in (bytes.fromhex("1a2b3c4d"), bytes.fromhex("4d3c2b1a")):
                raise Fault(place + 8, "magic")
            self.order = ">" if magic[0] == 0x1A else "<"
        size = self.number(place + 4)
        if size % 4 != 0 or size < {SECTION: 28, INTERFACE: 20, SIMPLE: 16, ENHANCED: 32}.get(kind, 12):
            raise Fault(place + 4, "length")
        if len(self.data) - place < size:
            raise Fault(place, "cut")
        if self.number(place + size - 4) != size:
            raise Fault(place + 4, "length")
        return kind, size

    def describe(self, place, size):
        link = self.number(place + 8, 2)
        if link not in LINKS + RAW_TOO:
            raise Fault(place + 8, "link type")
        self.interfaces.append((link, self.number(place + 12), *clock(self.order, place, self.data[place + 16:place + size - 4])))

    def packet(self, kind, place, size):
        number, fields, at_byte = (self.number(place + 8), 28, 8) if kind == ENHANCED else (0, 12, 0)
        if number >= len(self.interfaces):
            raise Fault(place + at_byte, "interface")
        link, most, units, offset = self.interfaces[number]
        if kind == ENHANCED:
            kept, length_at = self.number(place + 20), 20
        else:
            kept, length_at = self.number(place + 8), 8
            kept = min(kept, most) if most else kept
        if kept > size - fields - 4:
            raise Fault(place + length_at, "length")
        if kind == ENHANCED:
            time = (self.number(place + 12) << 32 | self.number(place + 16)) * 1000 // units + offset * 1000
            self.first = time if self.first is None else self.first
            self.moment = min(max(0, time - self.first), (1 << 64) - 1)
        self.frames.append((self.moment, facts(link, self.data[place + fields:place + fields + kept])))

    def read(self):
        place = 0
        while place < len(self.data):
            kind, size = self.header(place)
            if kind == SECTION:
                if self.number(place + 12, 2) != 1 or self.number(place + 14, 2) not in (0, 2):
                    raise Fault(place + 12, "version")
                self.interfaces = []
            elif kind == INTERFACE:
                self.describe(place, size)
            elif kind in (ENHANCED, SIMPLE):
                self.packet(kind, place, size)
            place += size
        return self.frames


def read(data):
    """The moments and the facts of a capture's records."""
    if data[:4] == struct.pack(">I", SECTION):
        return Sections(data).read()
    order, unit = next(((o, u) for u in MAGIC for o in "<>" if data[:4] == struct.pack(o + "I", MAGIC[u])), (None, None))
    if order is None:
        raise Fault(0, "magic")
    if len(data) < 24:
        raise Fault(0, "cut")
    if struct.unpack(order + "HH", data[4:8]) != (2, 4):
        raise Fault(4, "version")
    link = struct.unpack(order + "I", data[20:24])[0] & 0xFFFF
    if link not in LINKS + RAW_TOO:
        raise Fault(20, "link type")
    frames, place, first = [], 24, None
    while place < len(data):
        if len(data) - place < 16:
            raise Fault(place, "cut")
        seconds, fraction, kept, _ = struct.unpack(order + "IIII", data[place:place + 16])
        if len(data) - place - 16 < kept:
            raise Fault(place, "cut")
        time = seconds * 1000 + fraction // (1000 if unit == "micro" else 1000000)
        first = time if first is None else first
        frames.append((max(0, time - first), facts(link, data[place + 16:place + 16 + kept])))
        place += 16 + kept
    return frames


# ---- plans, and the packets that they make

SELECTORS = {
    "ip_saddr": ("ipv4_addr", lambda f: f["source"] if f["version"] == 4 else None),
    "ip_daddr": ("ipv4_addr", lambda f: f["dest"] if f["version"] == 4 else None),
    "ip6_saddr": ("ipv6_addr", lambda f: f["source"] if f["version"] == 6 else None),
    "ip6_daddr": ("ipv6_addr", lambda f: f["dest"] if f["version"] == 6 else None),
    "ether_saddr": ("ether_addr", lambda f: f["ether"][0] if "ether" in f else None),
    "ether_daddr": ("ether_addr", lambda f: f["ether"][1] if "ether" in f else None),
    "proto": ("inet_proto", lambda f: f.get("proto")),
    "sport": ("inet_service", lambda f: f.get("sport")),
    "dport": ("inet_service", lambda f: f.get("dport")),
}
PLANS = [
    [["ip_saddr", "dport"]],
    [["ip6_daddr", "sport", "proto"], ["ip_daddr"]],
    [["ether_saddr", "ether_daddr"], ["ip_saddr", "ip_daddr", "proto", "sport", "dport"], ["dport"],
     ["ip6_saddr", "ip6_daddr", "sport", "dport"]],
    [["ip_saddr", "proto"], ["ip6_daddr", "proto"], ["ip6_saddr"]],
]


def key_text(kind, value):
    if kind == "ipv4_addr":
        return str(ipaddress.IPv4Address(value))
    if kind == "ipv6_addr":
        return str(ipaddress.IPv6Address(value))
    if kind == "ether_addr":
        return ":".join(f"{b:02x}" for b in value.to_bytes(6, "big"))
    return str(value)


def packets(plan, frames):
    """Record by record and line by line: the line's number, and the key as a script has it."""
    for moment, found in frames:
        if found is None:
            continue
        for number, line in enumerate(plan):
            values = [SELECTORS[word][1](found) for word in line]
            if None not in values:
                yield number, moment, " . ".join(key_text(SELECTORS[word][0], value) for word, value in zip(line, values))


def script_of(plan, keys, left_out=0):
    """One set for each line, with one element for each key but the first so many."""
    text = ""
    for number, line in enumerate(plan):
        text += f"add set t s{number} {{ type {' . '.join(SELECTORS[w][0] for w in line)} ; }}\n"
        found = list(dict.fromkeys(key for n, _, key in keys if n == number))[left_out:]
        if found:
            text += f"add element t s{number} {{ {', '.join(found)} }}\n"
    return text


def plan_text(plan):
    return "".join(f"t s{number} {' . '.join(line)}\n" for number, line in enumerate(plan))


def rules_text(plan):
    """A rule for each set, which accepts what is in it."""
    return "chain all {\n" + "".join(f"in t s{number} accept\n" for number, _ in enumerate(plan)) + "}\npolicy drop\n"


def found_element(number, place):
    return f"element {place}" if place >= 0 else "none"


def found_rule(number, place):
    return f"rule {number} accept" if place >= 0 else "policy drop"


def wanted_output(plan, keys, left_out=0, found=found_element):
    places = {}
    for number, _, key in keys:
        mine = places.setdefault(number, {})
        mine.setdefault(key, len(mine))
    lines = []
    if any(len(mine) > left_out for mine in places.values()):
        lines.append("commit generation 1 purged 0")
    generation = len(lines)
    for packet, (number, _, key) in enumerate(keys):
        place = places[number][key] - left_out
        lines.append(f"packet {packet} thread 0 generation {generation} {found(number, place)}")
    return "".join(line + "\n" for line in lines)
