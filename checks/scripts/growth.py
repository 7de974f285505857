#!/usr/bin/env python3
"""Runs scripts of n and of 4n elements and changes: words PROGRAM.

Each row of the table is one kind of script. It grows too fast where the processor time of 4n is more than eight times that of
n, each the least of a few runs. What seems to grow too fast is measured again, twice at most, since on a busy machine one of the
two may be far off. No absolute time is looked at.
"""
import dataclasses
import os
import resource
import subprocess
import sys
import tempfile

MOST, TIMES, RUNS, TRIES = 8, 4, 3, 3


# ---- scripts

def address(n):
    """The address of this number."""
    return f"10.{n >> 16 & 255}.{n >> 8 & 255}.{n & 255}"


def addresses(flags, count):
    """A set of so many elements, committed."""
    yield f"add set ip t s {{ type ipv4_addr . inet_service ; flags interval{flags} ; }}"
    for n in range(count):
        yield f"add element ip t s {{ 10.{n >> 16 & 255}.{n >> 8 & 255}.{n & 255} . {1024 + n % 1000} }}"
    yield "commit"


def beside(flags, count):
    """So many elements, and commits of one change each of another set."""
    yield "add set ip t p { type inet_service ; }"
    yield from addresses(flags, count)
    for n in range(count // 25):
        yield f"{'delete' if n % 2 else 'add'} element ip t p {{ 80 }}"
        yield "commit"


def without_lives(count):
    return beside("", count)


def lives_far_off(count):
    return beside(",timeout ; timeout 1d", count)


def empty_flushes(count):
    """Flushes of an empty set of eight fields, a hundred a transaction."""
    yield "add set ip t p { type " + " . ".join(["inet_service"] * 8) + " ; }"
    for n in range(count):
        yield "flush set ip t p"
        if n % 100 == 99:
            yield "commit"


def purges(count):
    """So many elements, of which a hundred expire, and a commit at the moment of each of these."""
    yield from addresses(",timeout", count)
    for n in range(100):
        yield f"add element ip t s {{ 11.0.0.{n} . 1 timeout {n + 1}s }}"
    for n in range(100):
        yield f"at {1000 * (n + 1)}"
        yield "commit"


def deleted_in_turn(count):
    """So many elements, and a commit that deletes the first of them for each."""
    yield from addresses("", count)
    for n in range(count):
        yield f"delete element ip t s {{ 10.{n >> 16 & 255}.{n >> 8 & 255}.{n & 255} . {1024 + n % 1000} }}"
        yield "commit"


def purged_in_turn(count):
    """So many elements, each of which expires a second behind the one before it, and a commit at the moment of each."""
    yield "add set ip t s { type ipv4_addr . inet_service ; flags interval,timeout ; }"
    for n in range(count):
        yield f"add element ip t s {{ 10.{n >> 16 & 255}.{n >> 8 & 255}.{n & 255} . {1024 + n % 1000} timeout {n + 1}s }}"
    yield "commit"
    for n in range(count):
        yield f"at {1000 * (n + 1)}"
        yield "commit"


def purged_here_and_there(count):
    """The same, in an order in which each is far from the one before it."""
    yield "add set ip t s { type ipv4_addr . inet_service ; flags interval,timeout ; }"
    for n in range(count):
        yield f"add element ip t s {{ 10.{n >> 16 & 255}.{n >> 8 & 255}.{n & 255} . {1024 + n % 1000} timeout {n * 7919 % count + 1}s }}"
    yield "commit"
    for n in range(count):
        yield f"at {1000 * (n + 1)}"
        yield "commit"


def short_lives(count):
    """Elements that live for a second, each added and committed at a moment of its own beside five hundred that stay."""
    yield from addresses(",timeout", 500)
    for n in range(count):
        yield f"at {100 * (n + 1)}"
        yield f"add element ip t s {{ 11.{n >> 16 & 255}.{n >> 8 & 255}.{n & 255} . 1 timeout 1s }}"
        yield "commit"


def deletions(count):
    """So many elements, and one transaction that deletes them all, the first first."""
    yield from addresses("", count)
    for n in range(count):
        yield f"delete element ip t s {{ 10.{n >> 16 & 255}.{n >> 8 & 255}.{n & 255} . {1024 + n % 1000} }}"
    yield "commit"


def missing(count):
    """So many elements, and as many destructions of elements that aren't there."""
    yield from addresses("", count)
    for n in range(count):
        yield f"destroy element ip t s {{ 12.{n >> 16 & 255}.{n >> 8 & 255}.{n & 255} . 1 }}"
    yield "commit"


def expired(count):
    """So many elements, each of which encloses those before it, and all of which expire at the moment 1000."""
    yield "add set ip t p { type inet_service ; flags interval,timeout ; timeout 1s ; }"
    for n in range(1, count + 1):
        yield f"add element ip t p {{ {30000 - n}-{30000 + n} }}"


def replacements(count):
    """A set that is kept at its size: so many elements, and a commit that replaces the first of them for each."""
    yield f"add set ip t s {{ type ipv4_addr . inet_service ; flags interval ; size {count} ; }}"
    for n in range(count):
        yield f"add element ip t s {{ 10.{n >> 16 & 255}.{n >> 8 & 255}.{n & 255} . {1024 + n % 1000} }}"
    yield "commit"
    for n in range(count):
        yield f"delete element ip t s {{ 10.{n >> 16 & 255}.{n >> 8 & 255}.{n & 255} . {1024 + n % 1000} }}"
        yield f"add element ip t s {{ 11.{n >> 16 & 255}.{n >> 8 & 255}.{n & 255} . {1024 + n % 1000} }}"
        yield "commit"


def missing_inside(count):
    """So many blocks of addresses, and as many destructions of a single address in one of them that isn't there by itself."""
    yield "add set ip t s { type ipv4_addr ; flags interval ; }"
    for n in range(count):
        yield f"add element ip t s {{ {10 + (n >> 16)}.{n >> 8 & 255}.{n & 255}.0/24 }}"
    yield "commit"
    for n in range(count):
        yield f"destroy element ip t s {{ {10 + (n >> 16)}.{n >> 8 & 255}.{n & 255}.5 }}"
    yield "commit"


def all_in_one_field(count):
    """So many elements that each key matches in the first field."""
    yield "add set ip t s { type ipv4_addr . ipv4_addr ; flags interval ; }"
    for n in range(count):
        yield f"add element ip t s {{ 0.0.0.0/0 . 10.{n >> 16 & 255}.{n >> 8 & 255}.{n & 255} }}"
    yield "commit"


def wide_but_the_last(count):
    """So many elements that each key matches in all fields but the last."""
    yield "add set ip t s { type " + " . ".join(["inet_service"] * 16) + " ; flags interval ; }"
    for n in range(1, count + 1):
        yield "add element ip t s { " + "1-65534 . " * 15 + f"{n} }}"
    yield "commit"


def many_rules(count):
    """So many elements of 254 rules each, and a hundred commits that replace one in the middle."""
    yield "add set ip6 t s { type ipv6_addr ; flags interval ; }"
    for n in range(count):
        yield f"add element ip6 t s {{ {n + 1:x}::1-{n + 1:x}:ffff:ffff:ffff:ffff:ffff:ffff:fffe }}"
    yield "commit"
    for n in range(100):
        at = count // 2 + n % 20
        yield f"delete element ip6 t s {{ {at:x}::1-{at:x}:ffff:ffff:ffff:ffff:ffff:ffff:fffe }}"
        yield f"add element ip6 t s {{ {at:x}::1-{at:x}:ffff:ffff:ffff:ffff:ffff:ffff:fffe }}"
        yield "commit"


def short_elements(count):
    """One statement of so many elements, all of them the same port."""
    yield "add set ip t p { type inet_service ; }"
    yield "add element ip t p { " + ",".join(["1"] * count) + " }"

def changes_taken_back(count):
    """So many elements, and a change of the set and an abort for each of them."""
    yield from addresses("", count)
    for n in range(count):
        yield f"add element ip t s {{ 11.{n >> 16 & 255}.{n >> 8 & 255}.{n & 255} . 1 }}"
        yield "abort"


def disjoint_ranges(count):
    """So many ranges of addresses and ports in a set whose elements share no key."""
    yield "add set ip t s { type ipv4_addr . inet_service ; flags interval,disjoint ; }"
    for n in range(count):
        yield f"add element ip t s {{ 10.{n >> 12 & 255}.{n >> 4 & 255}.{n % 16 * 16}-10.{n >> 12 & 255}.{n >> 4 & 255}.{n % 16 * 16 + 9} . 1000-2000 }}"
    yield "commit"


def rounds(count):
    """So many rounds, each of one commit."""
    yield "add set ip t p { type inet_service ; }"
    for n in range(count):
        yield f"{'delete' if n % 2 else 'add'} element ip t p {{ 80 }}"
        yield "commit"
        yield "round"


def control_threads(count):
    """Sixteen control threads with so many transactions of one addition in all."""
    yield "add set ip t s { type ipv4_addr ; }"
    for n in range(count):
        if n % (count // 16) == 0:
            yield "round"
        yield f"add element ip t s {{ {address(n)} }}"
        yield "commit"


def thousand_packets(count):
    """A thousand packets that all of these elements hold, at a moment when they are expired."""
    yield "at 5000"
    for _ in range(1000):
        yield "ip t p 30000"


def packet_each_round(count):
    """So many rounds, each of one packet."""
    for _ in range(count):
        yield "ip t p 80"
        yield "round"


@dataclasses.dataclass
class Row:
    """What a script does, the script's lines by a number, the smaller number, and the lines of the key file by the number."""

    name: str
    script: object
    count: int
    keys: object = None
    command: str = "run"
    threads: int = 1


ROWS = [
    Row("commits beside elements without lives", without_lives, 50000),
    Row("commits beside elements whose lives are far off", lives_far_off, 50000),
    Row("flushes of an empty set", empty_flushes, 50000),
    Row("commits that purge one of the elements each", purges, 5000),
    Row("commits each of which deletes the first of the elements", deleted_in_turn, 2000),
    Row("commits each of which purges the first of the elements", purged_in_turn, 2000),
    Row("commits each of which purges one of the elements, here and there", purged_here_and_there, 2000),
    Row("additions with a short life, one commit each", short_lives, 5000),
    Row("deletions of all elements, the first first", deletions, 10000),
    Row("destructions of missing elements", missing, 20000),
    Row("destructions of missing addresses inside blocks that are there", missing_inside, 2000),
    Row("changes that are taken back", changes_taken_back, 10000),
    Row("a thousand packets that expired elements hold", expired, 7000, thousand_packets),
    Row("short elements in one statement", short_elements, 500000),
    Row("replacements of the first element of a full set, one commit each", replacements, 2000),
    Row("replacements in the middle of elements of many rules", many_rules, 200),
    Row("additions of elements that each key matches in the first field", all_in_one_field, 1000),
    Row("additions of elements that each key matches in all fields but the last", wide_but_the_last, 1000),
    Row("additions of ranges that share no key", disjoint_ranges, 2000),
    Row("rounds of one packet on sixteen threads", rounds, 5000, packet_each_round, threads=16),
    Row("transactions of sixteen control threads", control_threads, 1600, command="desk"),
]


# ---- times

def spent(program, words):
    """The processor time of one run, which must end well."""
    before = resource.getrusage(resource.RUSAGE_CHILDREN)
    done = subprocess.run([program, *words], stdout=subprocess.DEVNULL, timeout=600)
    after = resource.getrusage(resource.RUSAGE_CHILDREN)
    if done.returncode != 0:
        sys.exit(f"{' '.join(words)}: status {done.returncode}")
    return after.ru_utime + after.ru_stime - before.ru_utime - before.ru_stime


def write_lines(name, lines):
    with open(name, "w") as file:
        file.writelines(line + "\n" for line in lines)


def least(program, folder, row, count):
    """The least processor time of a few runs of the row's script for this number."""
    script, keys = os.path.join(folder, "script"), os.path.join(folder, "keys")
    write_lines(script, row.script(count))
    words = [row.command, script]
    if row.command == "run":
        write_lines(keys, row.keys(count) if row.keys else [])
        words += [keys, "--threads", str(row.threads)]
    return min(spent(program, words) for _ in range(RUNS))


def growth(program, folder, row):
    """How many times as long 4n take as n. What seems too much is measured again."""
    for _ in range(TRIES):
        more, less = (least(program, folder, row, times * row.count) for times in (TIMES, 1))
        ratio = more / max(less, 0.001)
        if ratio <= MOST:
            break
    return ratio


def main():
    program = sys.argv[1]
    bad = 0
    with tempfile.TemporaryDirectory() as folder:
        for row in ROWS:
            ratio = growth(program, folder, row)
            grows = ratio > MOST
            bad += grows
            print(f"{row.name}: {TIMES * row.count} take {ratio:.1f} times as long as {row.count}{', too many' if grows else ''}")
    print(f"growth: {len(ROWS)} kinds, {bad} grow too fast")
    return bad > 0


if __name__ == "__main__":
    sys.exit(main())
