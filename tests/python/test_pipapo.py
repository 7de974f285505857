"""The Python module over the shared library. Run by pytest, or alone: python3 test_pipapo.py

PIPAPO_PROGRAM names the built program. Without it the test that runs the program is skipped.
"""

import doctest
import os
import random
import re
import subprocess
import tempfile
import threading
import unittest

import pipapo
from pipapo import Control, Element, Error, Family, Kind, Outcome, PipapoError, Reason, Receipt, Set

FLOWS = [Set([Kind.IPV4, Kind.SERVICE])]


def refusal(call, *arguments, **named):
    """The refusal of a call that must be refused."""
    try:
        call(*arguments, **named)
    except PipapoError as error:
        return error
    raise AssertionError("the call was not refused")


def test_example():
    assert doctest.testmod(pipapo).failed == 0
    assert pipapo.version() == (0, 2, 0)


def test_changes_are_seen_after_the_commit():
    with Control(FLOWS) as control:
        reader = control.readers[0]
        with control.transaction() as change:
            added = change.insert(0, ["192.0.2.0", 80], ["192.0.2.255", 443], comment="web")
            assert (added.id, added.outcome) == (0, Outcome.NEW)
            assert change.insert(0, ["192.0.2.0", 80], ["192.0.2.255", 443]).outcome == Outcome.ALREADY
            assert reader.lookup(0, ["192.0.2.7", 80]) is None
        assert change.receipt == Receipt(1, 0) and control.number == 1
        assert reader.lookup(0, ["192.0.2.7", 443]) == 0
        assert reader.lookup(0, [0xC0000207, b"\x01\xbb"]) == 0
        assert reader.lookup(0, ["192.0.2.7", 444]) is None


def test_an_exception_takes_changes_back():
    with Control(FLOWS) as control:
        try:
            with control.transaction() as change:
                change.insert(0, ["192.0.2.1", 22])
                raise KeyError
        except KeyError:
            pass
        assert change.receipt is None and control.number == 0
        assert control.commit() == Receipt(1, 0)
        assert control.readers[0].lookup(0, ["192.0.2.1", 22]) is None


def test_refusals():
    with Control(FLOWS) as control:
        control.insert(0, ["192.0.2.0", 80], ["192.0.2.255", 443])
        overlap = refusal(control.insert, 0, ["192.0.2.9", 80], ["192.0.2.9", 90])
        assert (overlap.error, overlap.id) == (Error.OVERLAP, 0)
        exists = refusal(control.create, 0, ["192.0.2.0", 80], ["192.0.2.255", 443])
        assert (exists.error, exists.id, str(exists)) == (Error.EXISTS, 0, "a live element has the same intervals")
        assert refusal(control.delete, 0, ["192.0.2.1", 80]).error == Error.MISSING
        assert control.destroy(0, ["192.0.2.1", 80]).outcome == Outcome.ABSENT
        assert refusal(control.insert, 0, ["192.0.2.2", 80], ["192.0.2.1", 80]).error == Error.INTERVAL
        assert refusal(control.insert, 1, ["192.0.2.2", 80]).error == Error.SET
        assert refusal(control.insert, 0, ["192.0.2.2"]).error == Error.LENGTH
        assert refusal(control.readers[0].leave).error == Error.TURN
        assert control.flush(0) == 1
    assert refusal(control.commit).error == Error.NOTHING
    assert refusal(Control, [Set([])]).error == Error.SCHEMA
    assert refusal(Control, FLOWS, readers=0).error == Error.READERS
    assert refusal(Control, FLOWS, readers=17).error == Error.READERS


def test_scripts():
    rules = (
        "add set inet t hosts { type ipv4_addr ; }\n"
        "add set inet t flows { type ipv4_addr . inet_service ; flags interval ; }\n"
        "add element inet t flows { 192.0.2.0/24 . 80-443 }\n"
    )
    with Control.from_script(rules, readers=2) as control:
        hosts, flows = control.sets
        assert (hosts.kinds, hosts.family, hosts.table, hosts.name) == ([Kind.IPV4], Family.INET, "t", "hosts")
        assert (flows.kinds, flows.size, flows.disjoint) == ([Kind.IPV4, Kind.SERVICE], 0, False)
        assert control.number == 1 and len(control.readers) == 2
        assert control.readers[1].lookup(1, ["192.0.2.7", 443]) == 0
        assert control.readers[1].lookup(0, ["192.0.2.7"]) is None
        assert control.insert(0, ["192.0.2.7"]).outcome == Outcome.NEW
    bad = refusal(Control.from_script, rules.replace("80-443", "443-80"))
    assert (bad.error, bad.line, bad.column, bad.reason) == (Error.SCRIPT, 3, 43, Reason.VALUE)
    assert str(bad) == "3:43: a value or an interval is wanted here"
    refused = refusal(Control.from_script, rules + "add element inet t flows { 192.0.2.1 . 80 }\n")
    assert (refused.error, refused.line, refused.set, refused.cause, refused.id) == (Error.CHANGE, 4, 1, Error.OVERLAP, 0)
    assert str(refused) == "4: a live element is in the way"
    assert refusal(Control.from_script, rules, readers=17).error == Error.READERS


def test_listings():
    with Control([Set([Kind.MARK])]) as control:
        control.insert(0, [5], comment="five")
        assert b"elements" not in control.list()
        control.commit()
        listed = control.list()
        assert b'\t\ttype mark\n\t\tflags interval,timeout\n\t\telements = { 0x00000005 comment "five" }\n' in listed
    rules = b"table ip t {\n\tset s {\n\t\ttype mark\n\t\telements = { 0x00000005,\n\t\t\t     0x00000007 }\n\t}\n}\n"
    with Control.from_script(rules) as control:
        assert control.list() == rules
    assert refusal(control.list).error == Error.NOTHING


def test_sets_are_told_as_they_were_made():
    made = [
        Set([Kind.IPV4, Kind.SERVICE], 9, True, Family.BRIDGE, "t", "flows"),
        Set([Kind.IPV6]),
    ]
    with Control(made) as control:
        assert control.sets == made
    assert refusal(Control, [Set([Kind.MARK], name="n" * 65)]).error == Error.ROOM
    assert Control([]).sets == []


def test_elements_are_walked():
    with Control([Set([Kind.IPV4, Kind.SERVICE])]) as control:
        control.insert(0, ["192.0.2.0", 80], ["192.0.2.255", 443], expiry=1000, comment="web")
        control.insert(0, ["192.0.3.1", 22], comment="c" * 300)
        assert list(control.elements(0)) == []
        control.commit()
        walk = control.elements(0)
        first = next(walk)
        assert first == Element(0, (b"\xc0\0\2\0", b"\0P"), (b"\xc0\0\2\xff", b"\x01\xbb"), 1000, b"web")
        assert control.insert(0, first.low, first.high).outcome == Outcome.ALREADY
        control.flush(0)
        control.commit()
        assert [(one.id, one.expiry, len(one.comment)) for one in walk] == [(1, None, 300)]
        assert list(control.elements(0)) == [] and refusal(control.elements, 1).error == Error.SET


def test_elements_of_a_held_generation():
    with Control(FLOWS) as control:
        (reader,) = control.readers
        assert refusal(reader.elements, 0).error == Error.TURN
        for port in (80, 443, 8080):
            control.insert(0, ["192.0.2.1", port], expiry=1000 if port == 443 else None)
        control.commit()
        with reader:
            control.delete(0, ["192.0.2.1", 80])
            assert control.commit(1000) == Receipt(2, 1)
            old = reader.elements(0)
            assert [one.id for one in reader.elements(0)] == [0, 1, 2] and [one.id for one in control.elements(0)] == [2]
            assert refusal(reader.elements, 1).error == Error.SET
        with reader:
            assert [one.low for one in reader.elements(0)] == [(b"\xc0\0\2\1", b"\x1f\x90")]
        control.flush(0)
        control.commit()
        assert [one.id for one in old] == [0, 1, 2]


def test_notes():
    with Control(FLOWS, readers=2) as control:
        first, second = control.readers
        first.enter()
        control.commit()
        assert control.note() == 1 and first.note() == 0
        assert refusal(first.meet, 1).error == Error.NOTE
        first.leave()
        first.meet(control.note())
        assert first.enter() == 1 and second.note() == 1
        control.hear(second.note())
        assert refusal(control.hear, 2).error == Error.NOTE and refusal(second.meet, 2).error == Error.NOTE


def test_values():
    assert Kind.ETHER.pack("02:00:00:00:00:05") == b"\x02\0\0\0\0\x05"
    assert Kind.IPV6.pack("2001:db8::1") == bytes.fromhex("20010db8000000000000000000000001")
    assert Kind.PROTO.pack(6) == b"\x06" and Kind.MARK.pack("0x10") == b"\0\0\0\x10"
    for kind, value in ((Kind.SERVICE, 65536), (Kind.PROTO, -1), (Kind.IPV4, b"\1\2\3"), (Kind.IPV4, "192.0.2")):
        try:
            kind.pack(value)
        except ValueError:
            continue
        raise AssertionError(f"{value} was taken for a {kind.name}")


def test_numbers_that_c_cannot_take():
    """ctypes would take them modulo 2 to the power 32 or 64: the set 2**32 would be the set 0."""
    with Control([Set([Kind.PROTO])]) as control:
        (reader,) = control.readers
        control.insert(0, [6])
        control.commit()
        for call in (control.flush, control.elements, lambda set: control.insert(set, [7]), lambda set: reader.lookup_many(set, [])):
            for set in (2**32, -1, 1):
                assert refusal(call, set).error == Error.SET
        calls = [
            lambda number: control.insert(0, [7], now=number),
            lambda number: control.insert(0, [7], expiry=number),
            lambda number: control.delete(0, [6], now=number),
            lambda number: control.commit(number),
            lambda number: control.list(number),
            lambda number: control.hear(number),
            lambda number: reader.meet(number),
            lambda number: reader.lookup(0, [6], number),
            lambda number: reader.lookup_many(0, [[6]], number),
            lambda number: Control([Set([Kind.PROTO], size=number)]),
        ]
        for call in calls:
            for number in (-1, 2**64):
                try:
                    call(number)
                except ValueError:
                    continue
                raise AssertionError(f"{number} was taken")
        assert refusal(Control, [], readers=-1).error == Error.READERS
        assert control.number == 1 and reader.lookup(0, [6]) == 0 and reader.lookup(0, [7]) is None


def memory():
    """The bytes of memory that this process has from the system."""
    with open("/proc/self/statm", encoding="ascii") as file:
        return int(file.read().split()[0]) * os.sysconf("SC_PAGE_SIZE")


def test_what_is_not_closed_is_freed():
    control = Control(FLOWS, readers=2)
    control.insert(0, ["192.0.2.1", 22])
    control.commit()
    reader, walk = control.readers[1], control.elements(0)
    reader.enter()
    del control
    assert reader.lookup(0, ["192.0.2.1", 22]) == 0 and [one.id for one in walk] == [0]
    reader.close()
    assert refusal(reader.leave).error == Error.NOTHING
    # a control with its reader takes 1.5 MiB
    before = memory()
    for _ in range(100):
        Control(FLOWS)
    assert memory() - before < 50 << 20


def test_elements_expire():
    with Control([Set([Kind.IPV4])]) as control:
        control.insert(0, ["192.0.2.1"], expiry=1000)
        assert control.commit() == Receipt(1, 0)
        reader = control.readers[0]
        assert reader.lookup(0, ["192.0.2.1"], 999) == 0 and reader.lookup(0, ["192.0.2.1"], 1000) is None
        assert control.commit(1000) == Receipt(2, 1)


def test_random_calls_agree_with_a_list():
    """The set is compared with a list that is searched from its front."""
    random.seed(56)
    kinds = [Kind.SERVICE, Kind.PROTO]
    with Control([Set(kinds)]) as control:
        elements = []
        for step in range(400):
            low = [random.randrange(40), random.randrange(6)]
            high = [low[0] + random.randrange(4), low[1] + random.randrange(2)]
            try:
                added = control.insert(0, low, high)
                if added.outcome == Outcome.NEW:
                    elements.append((added.id, low, high))
            except PipapoError as error:
                assert error.error == Error.OVERLAP and any(error.id == one for one, _, _ in elements)
            if elements and step % 5 == 4:
                gone = elements.pop(random.randrange(len(elements)))
                assert control.delete(0, gone[1], gone[2]).id == gone[0]
            if step % 20 == 19:
                control.commit()
                assert [(one.id, one.low, one.high) for one in control.elements(0)] == [
                    (i, *(tuple(kind.pack(value) for kind, value in zip(kinds, key)) for key in (low, high))) for i, low, high in elements
                ]
                keys = [[a, b] for a in range(45) for b in range(8)]
                wanted = [next((i for i, low, high in elements if all(l <= v <= h for l, v, h in zip(low, key, high))), None) for key in keys]
                assert control.readers[0].lookup_many(0, keys) == (wanted, control.number)


def written(low, high):
    """The words of an interval of one field, as nft(8) has them."""
    return f"{low}" if low == high else f"{low}-{high}"


def address(number):
    return f"192.0.2.{number}"


class Written:
    """Calls, and the script of the same statements. Each statement has a line of its own."""

    def __init__(self, control):
        self.control, self.now, self.events = control, 0, []
        self.lines = ["add set ip t s { type ipv4_addr . inet_service; flags interval, timeout; size 24; }"]

    def line(self, text):
        self.lines.append(text)

    def change(self, verb, low, high, life):
        """Adds, creates, deletes or destroys an element; `life` is in seconds, or None."""
        words = f"{written(address(low[0]), address(high[0]))} . {written(low[1], high[1])}"
        self.line(f"{verb} element ip t s {{ {words}{f' timeout {life}s' if life else ''} }}")
        low, high = [address(low[0]), low[1]], [address(high[0]), high[1]]
        try:
            if verb in ("add", "create"):
                call = self.control.insert if verb == "add" else self.control.create
                call(0, low, high, expiry=self.now + 1000 * life if life else None, now=self.now)
            else:
                (self.control.delete if verb == "delete" else self.control.destroy)(0, low, high, now=self.now)
        except PipapoError as error:
            way = error.id if error.error in (Error.OVERLAP, Error.EXISTS) else None
            self.events.append(("refused", len(self.lines), error.error.name.lower(), way))

    def flush(self):
        self.line("flush set ip t s")
        self.control.flush(0)

    def wait(self, milliseconds):
        self.now += milliseconds
        self.line(f"at {self.now}")

    def commit(self):
        self.line("commit")
        receipt = self.control.commit(self.now)
        self.events.append(("commit", receipt.generation, receipt.purged))

    def abort(self):
        self.line("abort")
        self.control.abort()
        self.events.append(("abort", self.control.number))


def event_of(line):
    """What a line of a transcript says."""
    if found := re.fullmatch(r"line (\d+) refused (\w+) ip t s(?: element (\d+))?", line):
        return ("refused", int(found[1]), found[2], int(found[3]) if found[3] else None)
    if found := re.fullmatch(r"commit generation (\d+) purged (\d+)", line):
        return ("commit", int(found[1]), int(found[2]))
    if found := re.fullmatch(r"abort generation (\d+)", line):
        return ("abort", int(found[1]))
    found = re.fullmatch(r"packet (\d+) thread 0 generation (\d+) (?:element (\d+)|none)", line)
    return ("packet", int(found[1]), int(found[2]), int(found[3]) if found[3] else None)


def test_random_calls_agree_with_the_programs_transcript():
    program = os.environ.get("PIPAPO_PROGRAM")
    if not program or not os.path.exists(program):
        raise unittest.SkipTest("PIPAPO_PROGRAM names no built program")
    for seed in range(20):
        random.seed(seed)
        with Control([Set([Kind.IPV4, Kind.SERVICE], size=24)]) as control:
            run = Written(control)
            for _ in range(150):
                low = [random.randrange(12), random.randrange(1, 8)]
                high = [low[0] + random.randrange(4), low[1] + random.randrange(3)]
                kind = random.randrange(20)
                if kind == 0:
                    run.flush()
                elif kind == 1:
                    run.abort()
                elif kind < 4:
                    run.commit()
                elif kind < 6:
                    run.wait(random.randrange(3000))
                else:
                    verb = random.choice(["add", "add", "add", "create", "delete", "destroy"])
                    run.change(verb, low, high, random.choice([None, None, 1, 5]) if verb in ("add", "create") else None)
            run.commit()
            run.line("round")
            packets = [(random.randrange(16), random.randrange(1, 11), random.randrange(8000)) for _ in range(200)]
            keys = ["round"]
            for number, (host, port, moment) in enumerate(packets):
                keys += [f"at {moment}", f"ip t s {address(host)} . {port}"]
                found = control.readers[0].lookup(0, [address(host), port], moment)
                run.events.append(("packet", number, control.number, found))
        with tempfile.TemporaryDirectory() as room:
            names = [os.path.join(room, "script"), os.path.join(room, "keys")]
            for name, lines in zip(names, (run.lines, keys)):
                with open(name, "w", encoding="ascii") as out:
                    out.write("\n".join(lines) + "\n")
            made = subprocess.run([program, "run", *names, "--keep-going"], capture_output=True, text=True, check=False)
        assert made.returncode in (0, 1), made.stderr
        assert [event_of(line) for line in made.stdout.splitlines()] == run.events, seed


def test_readers_in_threads():
    with Control([Set([Kind.SERVICE])], readers=4) as control:
        ended, wrong = threading.Event(), []

        def read_on(reader):
            while not ended.is_set():
                with reader as held:
                    number = held.generation
                    if held.lookup(0, [number]) != (number - 1 if number else None):
                        wrong.append(number)

        threads = [threading.Thread(target=read_on, args=[reader]) for reader in control.readers]
        for thread in threads:
            thread.start()
        for number in range(1, 500):
            if number > 1:
                control.delete(0, [number - 1])
            control.insert(0, [number])
            assert control.commit().generation == number
        ended.set()
        for thread in threads:
            thread.join()
        assert not wrong


if __name__ == "__main__":
    for name, test in list(globals().items()):
        if name.startswith("test_"):
            try:
                test()
            except unittest.SkipTest as reason:
                print(f"{name}: skipped: {reason}")
                continue
            print(f"{name}: passed")
