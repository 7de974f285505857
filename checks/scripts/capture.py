#!/usr/bin/env python3
"""Writes captures, runs the program's `capture` on them, and judges what it writes by a reader of its own.

    capture.py run PROGRAM [SEED]      captures of every form, and every fault at every byte; a part of them also by `judge`
    capture.py tshark PROGRAM          captures of Wireshark's tools, whose facts tshark prints
    capture.py self-test               the reader gives the facts of packets that were taken apart by hand
    capture.py write SEED FILE         writes that capture

The set of a run has one element for each key that is expected, so the number of the element that a packet finds is the
key that the program took from it.
"""

import fractions
import ipaddress
import math
import os
import random
import socket
import struct
import subprocess
import sys
import tempfile
import time

from captures import AUTHENTICATION, COOKED, COOKED_TWO, DCCP, DESTINATION, ETHERNET, EXTENSIONS, FRAGMENT, HOP_BY_HOP, IPV4
from captures import IPV6, LINKS, MAGIC, PLANS, PORTED, RAW, ROUTING, SCTP, STATISTICS, TCP, UDP, UDP_LITE, Fault, block, cooked
from captures import cooked_two, enhanced, ethernet, extension, facts, found_rule, header, interface, ipv4, ipv6, option, packets
from captures import plan_text, ports, read, record, rules_text, script_of, section, simple, wanted_output

# ---- runs


class Judge:
    def __init__(self, program):
        self.program, self.bad, self.runs = program, 0, 0
        self.folder = tempfile.TemporaryDirectory()

    def put(self, name, data):
        path = os.path.join(self.folder.name, name)
        with open(path, "wb") as out:
            out.write(data if isinstance(data, bytes) else data.encode())
        return path

    def run(self, what, plan, script, data, wanted, status, rules=None):
        names = [self.put("script", script), self.put("plan", plan_text(plan)), self.put("capture", data)]
        words = ["capture", *names] if rules is None else ["judge", names[0], self.put("rules", rules), *names[1:]]
        ran = subprocess.run([self.program, *words], capture_output=True, check=False)
        self.runs += 1
        if (ran.stdout.decode(), ran.returncode) != (wanted, status):
            self.bad += 1
            print(f"checks/scripts/capture.py: {what}: wanted status {status} and\n{wanted[:400]}and got status {ran.returncode} and\n"
                  f"{ran.stdout.decode()[:400]}")

    def capture(self, what, plan, data, left_out=0):
        """Judges a run by the reader."""
        try:
            keys = list(packets(plan, read(data)))
        except Fault as fault:
            byte, reason = fault.args
            self.run(what, plan, script_of(plan, []), data, f"pipapo: capture byte {byte}: {reason}\n", 10)
            return
        self.run(what, plan, script_of(plan, keys, left_out), data, wanted_output(plan, keys, left_out), 0)

    def judge(self, what, plan, data, left_out):
        """The same by a rule for each set."""
        keys = list(packets(plan, read(data)))
        wanted = wanted_output(plan, keys, left_out, found_rule)
        self.run(f"{what}, judged", plan, script_of(plan, keys, left_out), data, wanted, 0, rules_text(plan))

    def end(self, what):
        print(f"checks/scripts/capture.py: {self.runs} runs of {what}, {self.bad} bad")
        return 1 if self.bad else 0


def some_packets(rng):
    """Packets of each form, those without facts too."""
    four = [rng.randrange(1 << 32) for _ in range(3)]
    six = [rng.randrange(1 << 128) for _ in range(3)]
    port = [0, 53, 443, 2048, 65535]

    def any_ports():
        return ports(rng.choice(port), rng.choice(port), bytes(rng.randrange(0, 20)))

    def any_four(proto=None, **form):
        return ipv4(rng.choice(four), rng.choice(four), rng.choice(PORTED) if proto is None else proto, any_ports(), **form)

    def any_six(following=None, **form):
        return ipv6(rng.choice(six), rng.choice(six), rng.choice(PORTED) if following is None else following, any_ports(),
                    **form)

    def any_chain():
        """One to three extension headers before a protocol."""
        proto, payload = rng.choice((*PORTED, 58, 59, 50)), any_ports()
        for _ in range(rng.randrange(1, 4)):
            kind = rng.choice((HOP_BY_HOP, ROUTING, FRAGMENT, AUTHENTICATION, DESTINATION))
            payload = extension(kind, proto, payload, rng.randrange(3), rng.choice((0, 0, 1, 8191)), rng.randrange(2))
            proto = kind
        return ipv6(rng.choice(six), rng.choice(six), proto, payload)

    found = []
    for _ in range(3):
        found += [(0x0800, any_four()), (0x86DD, any_six())]
        found += [(0x0800, any_four(options=bytes(4 * n))) for n in (1, 5, 10)]
        # a first fragment has ports, a later one none
        found += [(0x0800, any_four(more=True)), (0x0800, any_four(offset=1)), (0x0800, any_four(offset=0x1FFF, more=True))]
        found += [(0x0800, any_four(proto=p)) for p in (1, 47, 51, 132)] + [(0x86DD, any_six(following=p)) for p in (0, 44, 58, 59)]
        found += [(0x86DD, any_chain()) for _ in range(4)]
        found += [(0x0800, any_four(words=4)), (0x0800, any_four(words=15)), (0x0800, any_four(version=5))]
        # what the type doesn't say, and types of others
        found += [(0x0800, any_six()), (0x86DD, any_four()), (0x0806, any_four()), (0x88CC, b""), (0x0800, b"")]
    return found


def some_frames(rng, link):
    for kind, packet in some_packets(rng):
        tags = rng.choice([(), (), (0x8100,), (0x88A8, 0x8100), (0x8100, 0x8100, 0x8100)])
        if link == ETHERNET:
            yield ethernet(rng.randrange(1 << 48), rng.randrange(1 << 48), kind, packet, tags)
        elif link == COOKED:
            yield cooked(kind, packet, tags, rng.choice((1, 1, 772, 770, 803, 824)))
        elif link == COOKED_TWO:
            yield cooked_two(kind, packet, rng.choice((1, 1, 772, 770, 803, 824)))
        else:
            yield packet


def some_capture(rng, order, unit, link):
    data, seconds = header(order, unit, link | rng.choice((0, 0x10000, 0xF0000000))), 1700000000
    for frame in some_frames(rng, link):
        seconds += rng.choice((0, 0, 1, -2, 3600))
        data += record(order, seconds, rng.randrange(1000000 if unit == "micro" else 1000000000), frame, rng.choice((None, 9000)))
    return data


def all_forms(judge, rng):
    for order in "<>":
        for unit in MAGIC:
            for link in LINKS:
                for plan in PLANS:
                    what = f"{'little' if order == '<' else 'big'} {unit} link {link} plan {plan}"
                    data = some_capture(rng, order, unit, link)
                    judge.capture(what, plan, data)
                    judge.capture(what + " some keys missing", plan, data, left_out=2)
                    judge.judge(what, plan, data, left_out=2)


def all_cuts(judge, rng):
    """Each packet cut by its record at each byte, and a file cut at each byte."""
    for link in LINKS:
        data = header("<", "micro", link)
        for frame in list(some_frames(rng, link))[:6]:
            for size in range(len(frame) + 1):
                data += record("<", 1, 0, frame[:size], len(frame))
        for plan in PLANS:
            judge.capture(f"frames cut at each byte, link {link}", plan, data)
    data = some_capture(rng, ">", "nano", ETHERNET)[:400]
    for size in range(len(data) + 1):
        judge.capture(f"a file cut at byte {size}", PLANS[0], data[:size])


def all_faults(judge):
    good = header("<", "micro", RAW)
    for what, data in [
        ("gzip", b"\x1f\x8b\x08\0" + bytes(40)),
        ("a text", b"ip t s ip_saddr . dport\n"),
        ("another magic", struct.pack("<I", 0xA1B2CD34) + good[4:]),
        ("version 2.3", header("<", "micro", RAW, (2, 3))),
        ("version 4.2", header(">", "nano", RAW, (4, 2))),
        ("the bytes of the version in the other order", good[:4] + b"\0\x02\0\x04" + good[8:]),
        ("802.11", header("<", "micro", 105)),
        ("link type 0", header(">", "micro", 0)),
        ("another link type and a cut record", header("<", "micro", 105) + b"\0"),
        ("raw IP by another number, and a cut record", header("<", "micro", 12) + b"\0"),
        ("raw IP by a third number", header("<", "micro", 14)),
        ("a record longer than the file", good + struct.pack("<IIII", 0, 0, 0xFFFFFFFF, 1) + bytes(60)),
        ("no record", good),
        ("empty records alone", good + 3 * record("<", 0, 0, b"")),
    ]:
        judge.capture(what, PLANS[0], data)


def some_sections(rng, order):
    """Two sections with interfaces of every link and clock, enhanced and simple packets, and blocks that are skipped."""
    data = b""
    for part in (order, "<" if order == ">" else ">"):
        data += section(part, rng.choice(((1, 0), (1, 2))))
        for number, link in enumerate(LINKS):
            value = rng.choice((0, 3, 6, 9, 19, 0x80, 0x8A, 0xBF))
            options = rng.choice((b"", option(part, 9, bytes([value])))) + option(part, 2, b"eth0")
            options += rng.choice((b"", option(part, 14, struct.pack(part + "q", rng.choice((-1, 1, -3600))))))
            data += interface(part, link, rng.choice((0, 40, 64, 65535)), options + rng.choice((b"", bytes(4))))
        for number, link in enumerate(LINKS):
            for frame in some_frames(rng, link):
                data += enhanced(part, number, rng.choice((rng.randrange(1 << 40), rng.randrange(1 << 64))), frame)
        data += block(part, STATISTICS, bytes(12)) + block(part, 0x0BAD0BAD, b"")
    return data


def all_sections(judge, rng):
    for order in "<>":
        for plan in PLANS:
            data = some_sections(rng, order)
            judge.capture(f"sections {order} plan {plan}", plan, data)
            judge.judge(f"sections {order} plan {plan}", plan, data, left_out=1)
    # each snapshot length, with as many bytes as it lets through
    packet = ipv4(1, 2, UDP, ports(9, 80))
    for order in "<>":
        data = section(order) + interface(order, RAW) + simple(order, len(packet), packet)
        for most in range(1, len(packet) + 2):
            data += section(order) + interface(order, RAW, most) + simple(order, len(packet), packet[:most])
            data += enhanced(order, 0, most * 1000, packet[:most]) + simple(order, len(packet), packet[:most])
        judge.capture(f"snapshot lengths {order}", [["ip_saddr", "dport"], ["ip_daddr"]], data)
    data = some_sections(rng, "<")[:700]
    for size in range(4, len(data) + 1):
        judge.capture(f"sections cut at byte {size}", PLANS[0], data[:size])
    # one byte changed, in every block of a short file
    good = section("<") + interface("<", RAW, 64, option("<", 9, b"\x06") + option("<", 14, bytes(8)) + bytes(4))
    good += enhanced("<", 0, 5, packet) + simple("<", len(packet), packet) + block("<", STATISTICS, bytes(8))
    for place in range(4, len(good)):
        for value in {0, 1, 4, 255, good[place] ^ 1} - {good[place]}:
            judge.capture(f"byte {place} is {value}", PLANS[0], good[:place] + bytes([value]) + good[place + 1:])


def moments(judge):
    """An element that lives for a second from the first record on, and packets around its end."""
    plan = [["dport"]]
    for order, unit, tick in (("<", "micro", 1000), (">", "nano", 1000000)):
        data, wanted = header(order, unit, RAW), "commit generation 1 purged 0\n"
        packet = ipv4(1, 2, UDP, ports(9, 80))
        # fractions are rounded down, and a record before the first is at moment 0
        for number, (seconds, fraction, lives) in enumerate(
                [(5, 0, True), (4, 0, True), (5, 999 * tick, True), (5, 1000 * tick - 1, True), (6, 0, False), (7, 1, False)]):
            data += record(order, seconds, fraction, packet)
            wanted += f"packet {number} thread 0 generation 1 {'element 0' if lives else 'none'}\n"
        script = "add set t s0 { type inet_service ; flags timeout ; }\nadd element t s0 { 80 timeout 1s }\n"
        judge.run(f"moments {unit}", plan, script, data, wanted, 0)


def run(program, seed):
    judge, rng = Judge(program), random.Random(seed)
    all_faults(judge)
    moments(judge)
    all_cuts(judge, rng)
    all_forms(judge, rng)
    all_sections(judge, rng)
    return judge.end("captures")


# ---- beside tshark

PORTS = {TCP: "tcp", UDP: "udp", UDP_LITE: "udp", DCCP: "dccp", SCTP: "sctp"}
NEXT = ["ipv6.nxt", "ipv6.hopopts.nxt", "ipv6.routing.nxt", "ipv6.fraghdr.nxt", "ipv6.dstopts.nxt", "ah.next_header"]
FIELDS = ["frame.time_epoch", "ip.src", "ip.dst", "ipv6.src", "ipv6.dst", "eth.src", "eth.dst", "ip.proto", *NEXT] + \
    [name + end for name in ("tcp", "udp", "dccp", "sctp") for end in (".srcport", ".dstport")]


def tshark_packet(values):
    """The facts of a packet of IP, by tshark's fields. An error of ICMP also has the fields of the packet in it, after its own."""
    own = {field: value.split(",")[0] for field, value in values.items()}
    six = not own["ip.src"]
    name = "ipv6" if six else "ip"
    found = {"version": 6 if six else 4, "source": int(ipaddress.ip_address(own[name + ".src"])),
             "dest": int(ipaddress.ip_address(own[name + ".dst"]))}
    following = [int(own["ipv6.nxt" if six else "ip.proto"])]
    if six and following[0] in EXTENSIONS:
        following = [int(number) for field in NEXT for number in values[field].split(",") if number]
    last = [number for number in following if not six or number not in EXTENSIONS]
    if len(last) == 1:
        found["proto"] = last[0]
        ends = [own[f"{PORTS[last[0]]}.{end}"] for end in ("srcport", "dstport")] if last[0] in PORTS else ["", ""]
        if all(ends):
            found["sport"], found["dport"] = (int(end) for end in ends)
    if own["eth.src"]:
        found["ether"] = tuple(int(own[end].replace(":", ""), 16) for end in ("eth.src", "eth.dst"))
    return found


def tshark_frames(path):
    """The moment and the facts of each packet, as tshark prints them."""
    words = ["tshark", "-n", "-r", path, "-o", "ip.defragment:FALSE", "-o", "ipv6.defragment:FALSE", "-T", "fields", "-E",
             "separator=;"]
    for field in FIELDS:
        words += ["-e", field]
    first = None
    for line in subprocess.run(words, capture_output=True, check=True, text=True).stdout.splitlines():
        values = dict(zip(FIELDS, line.split(";")))
        now = math.floor(fractions.Fraction(values["frame.time_epoch"]) * 1000)
        first = now if first is None else first
        yield max(0, now - first), tshark_packet(values) if values["ip.src"] or values["ipv6.src"] else None


def sound_transport(rng):
    """A protocol and a header of it that tshark reads: with ports, and of ICMP, ICMPv6 and ESP."""
    ends = struct.pack(">HH", rng.randrange(50000, 60000), rng.randrange(50000, 60000))
    return rng.choice([
        (TCP, ends + struct.pack(">IIBBHHH", 1, 0, 0x50, 2, 1024, 0, 0)), (UDP, ends + struct.pack(">HH", 8, 0)),
        (UDP_LITE, ends + struct.pack(">HH", 8, 0)), (DCCP, ends + bytes.fromhex("04000000 05000000 00000001")),
        (SCTP, ends + struct.pack(">IIBBH", 1, 0, 11, 0, 4)), (1, bytes.fromhex("0800f7fd00010001")),
        (58, bytes.fromhex("8000000000010001")), (50, bytes(16)),
    ])


def sound_packet(rng):
    """The type and the bytes of a packet that tshark reads whole: also of fragments, and of other protocols than IP."""
    proto, load = sound_transport(rng)
    if rng.random() < 0.1:
        return 0x0806, bytes.fromhex("0001080006040001 020000000001 0a000001 000000000000 0a000002")
    if rng.random() < 0.5:
        offset = rng.choice((0, 0, 0, 185))
        return 0x0800, ipv4(rng.randrange(1 << 32), rng.randrange(1 << 32), proto, load, options=b"\x01" * (4 * rng.randrange(3)),
                            offset=offset, more=rng.random() < 0.2)
    for _ in range(rng.choice((0, 0, 1, 2))):
        kind = rng.choice((HOP_BY_HOP, ROUTING, AUTHENTICATION, DESTINATION))
        load, proto = extension(kind, proto, load, rng.choice((0, 1)) if kind != AUTHENTICATION else 2), kind
    if rng.random() < 0.3 and proto not in EXTENSIONS:
        load, proto = extension(FRAGMENT, proto, load, offset=rng.choice((0, 185)), more=rng.randrange(2)), FRAGMENT
    return 0x86DD, ipv6(rng.randrange(1 << 128), rng.randrange(1 << 128), proto, load)


def sound_frames(rng, link, count=60):
    while count > 0:
        kind, packet = sound_packet(rng)
        tags = rng.choice([(), (0x8100,), (0x88A8, 0x8100)])
        if link == ETHERNET:
            yield ethernet(rng.randrange(1 << 46) * 4, rng.randrange(1 << 46) * 4, kind, packet, tags)
        elif link == COOKED:
            yield cooked(kind, packet, tags[:1])
        elif link == COOKED_TWO:
            yield cooked_two(kind, packet)
        elif kind == 0x0806 or (link, kind) in ((IPV4, 0x86DD), (IPV6, 0x0800)):
            continue
        else:
            yield packet
        count -= 1


def sound_pcap(rng, link, unit):
    data, seconds = header("<", unit, link), 1700000000
    for frame in sound_frames(rng, link):
        seconds += rng.randrange(3)
        data += record("<", seconds, rng.randrange(1000000 if unit == "micro" else 1000000000), frame)
    return data


def sound_sections(rng):
    """Two sections in both orders, with interfaces of all links and clocks, and simple packets."""
    data = b""
    clocks = [b"", bytes([3]), bytes([9]), bytes([0x8A]), bytes([0xA0])]
    for order in "<>":
        data += section(order)
        units = []
        for number, link in enumerate(LINKS):
            value = clocks[(number + (order == ">")) % len(clocks)]
            options = option(order, 9, value) if value else b""
            options += option(order, 14, struct.pack(order + "q", rng.choice((-7200, 3600)))) if number % 3 == 2 else b""
            data += interface(order, link, 1000, options + bytes(4) if options else b"")
            units.append(1000000 if not value else 10 ** value[0] if value[0] < 128 else 2 ** (value[0] - 128))
        for number, link in enumerate(LINKS):
            for frame in sound_frames(rng, link, 10):
                data += enhanced(order, number, 1700000000 * units[number] + rng.randrange(5 * units[number]), frame)
        data += block(order, STATISTICS, bytes(12))
    return data


def their_captures(judge, rng):
    """The names and the bytes of captures of every link type and form, as Wireshark's tools write them."""
    ours = []
    for link in LINKS:
        for unit in MAGIC:
            ours.append((f"{unit} link {link}", judge.put(f"ours-{link}-{unit}", sound_pcap(rng, link, unit))))
    yield from ours
    yield "sections", judge.put("sections", sound_sections(rng))

    def tool(what, *words):
        path = os.path.join(judge.folder.name, what.replace(" ", "-"))
        subprocess.run([word if word != "OUT" else path for word in words], capture_output=True, check=True)
        return what, path

    for what, path in ours:
        yield tool(f"editcap of {what}", "editcap", "-F", "pcapng", path, "OUT")
    yield tool("mergecap of all by time", "mergecap", "-F", "pcapng", "-w", "OUT", *(path for _, path in ours))
    yield tool("mergecap of all in turn", "mergecap", "-a", "-F", "pcapng", "-w", "OUT", *(path for _, path in ours))


def send_some():
    """Packets of UDP and TCP over the loopback interface, by IPv4 and IPv6."""
    for family, host in ((socket.AF_INET, "127.0.0.1"), (socket.AF_INET6, "::1")):
        for port in range(50000, 50010):
            with socket.socket(family, socket.SOCK_DGRAM) as udp, socket.socket(family, socket.SOCK_STREAM) as tcp:
                udp.sendto(b"hello", (host, port))
                tcp.connect_ex((host, port))


def live_captures(judge):
    """What dumpcap captures of packets over the loopback interface, in both of its forms."""
    for what, words in (("lo", ["-i", "lo"]), ("any", ["-i", "any"]), ("any in pcap", ["-i", "any", "-P"])):
        path = os.path.join(judge.folder.name, "live-" + what.replace(" ", "-"))
        with subprocess.Popen(["dumpcap", "-q", "-c", "40", "-a", "duration:20", "-w", path, *words],
                              stderr=subprocess.DEVNULL) as dumpcap:
            while dumpcap.poll() is None:
                send_some()
                time.sleep(0.2)
        if dumpcap.returncode == 0 and os.path.exists(path):
            yield f"dumpcap of {what}", path


def beside_tshark(program):
    judge, rng = Judge(program), random.Random(1)
    live = list(live_captures(judge))
    if not live:
        print("checks/scripts/capture.py: skipped: dumpcap may not capture here")
    for what, path in [*their_captures(judge, rng), *live]:
        with open(path, "rb") as theirs:
            data = theirs.read()
        frames = list(tshark_frames(path))
        if frames != read(data):
            judge.bad += 1
            print(f"checks/scripts/capture.py: {what}: the reader and tshark differ")
        for plan in PLANS:
            keys = list(packets(plan, frames))
            judge.run(what, plan, script_of(plan, keys), data, wanted_output(plan, keys), 0)
    return judge.end("captures beside tshark")


# ---- the reader, by packets that were taken apart by hand


def self_test():
    packet = bytes.fromhex("4500001c00000000 40110000 c0a80105 0a000005 04d20800 00080000")
    by_hand = {"version": 4, "source": 0xC0A80105, "dest": 0x0A000005, "proto": 17, "sport": 1234, "dport": 2048}
    assert facts(RAW, packet) == by_hand
    portless = {"version": 4, "source": 0xC0A80105, "dest": 0x0A000005, "proto": 17}
    assert all(facts(RAW, packet[:size]) is None for size in range(20))
    assert all(facts(RAW, packet[:size]) == portless for size in range(20, 24))
    assert facts(RAW, packet[:24]) == by_hand
    assert facts(COOKED, bytes.fromhex("0000 0001 0006 0200000000010000 0800") + packet) == by_hand
    assert facts(COOKED, bytes.fromhex("0000 0338 0006 0200000000010000 0800") + packet) is None
    assert facts(COOKED_TWO, bytes.fromhex("0800 0000 00000002 0001 00 06 0200000000010000") + packet) == by_hand
    assert facts(IPV4, packet) == by_hand and facts(IPV6, packet) is None
    six = bytes.fromhex("60000000 0014 00 40 20010db8000000000000000000000001 20010db8000000000000000000000002")
    addresses = {"version": 6, "source": 0x20010DB8 << 96 | 1, "dest": 0x20010DB8 << 96 | 2}
    # hop-by-hop options before a fragment header before UDP; a later fragment; and options that are cut
    chained = six + bytes.fromhex("2c00010400000000 1100000100000001 04d20800")
    assert facts(RAW, chained) == addresses | {"proto": 17, "sport": 1234, "dport": 2048}
    assert facts(RAW, six + bytes.fromhex("2c00010400000000 1100000800000001 04d20800")) == addresses | {"proto": 17}
    assert facts(RAW, six + bytes.fromhex("2c000104000000")) == addresses
    frame = bytes.fromhex("0200000000 01 0200000000 02 88a8 0007 8100 0008 0800") + packet
    assert facts(ETHERNET, frame) == {**by_hand, "ether": (0x020000000002, 0x020000000001)}
    three = bytes.fromhex("0200000000 01 0200000000 02 8100 0007 8100 0008 8100 0009 0800") + packet
    assert facts(ETHERNET, three) is None
    assert facts(RAW, packet[:6] + b"\x00\x01" + packet[8:]) == portless
    assert facts(RAW, packet[:6] + b"\x20\x00" + packet[8:]) == by_hand
    data = bytes.fromhex("d4c3b2a1 02000400 00000000 00000000 00000400 65000000 01000000 20a10700 1c000000 1c000000") + packet
    assert read(data) == [(0, by_hand)]
    keys = list(packets([["ip_saddr", "dport"]], read(data)))
    assert keys == [(0, 0, "192.168.1.5 . 2048")]
    assert wanted_output([["ip_saddr", "dport"]], keys) == "commit generation 1 purged 0\npacket 0 thread 0 generation 1 element 0\n"
    for size, fault in ((0, (0, "magic")), (3, (0, "magic")), (4, (0, "cut")), (23, (0, "cut")), (25, (24, "cut")),
                        (67, (24, "cut"))):
        try:
            read(data[:size])
        except Fault as found:
            assert found.args == fault
        else:
            raise AssertionError(size)
    assert read(data[:24]) == []
    # the blocks of the draft: a section, an interface of raw IP, packets at 0.001 s and 2 s, and a simple packet
    blocks = bytes.fromhex("0a0d0d0a 1c000000 4d3c2b1a 01000000 ffffffffffffffff 1c000000"
                           "01000000 14000000 6500 0000 00000400 14000000")
    for stamp in ("00000000 e8030000", "00000000 80841e00"):
        blocks += bytes.fromhex("06000000 3c000000 00000000" + stamp + "1c000000 1c000000") + packet + bytes.fromhex("3c000000")
    blocks += bytes.fromhex("03000000 2c000000 1c000000") + packet + bytes.fromhex("2c000000")
    assert read(blocks) == [(0, by_hand), (1999, by_hand), (1999, by_hand)]
    return 0


def main(words):
    if words[:1] == ["run"] and len(words) in (2, 3):
        return run(words[1], int(words[2]) if len(words) == 3 else 7)
    if words[:1] == ["tshark"] and len(words) == 2:
        return beside_tshark(words[1])
    if words == ["self-test"]:
        return self_test()
    if words[:1] == ["write"] and len(words) == 3:
        with open(words[2], "wb") as out:
            out.write(some_capture(random.Random(int(words[1])), "<", "micro", ETHERNET))
        return 0
    print(__doc__)
    return 2


if __name__ == "__main__":
    sys.exit(main(sys.argv[1:]))
