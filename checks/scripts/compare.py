#!/usr/bin/env python3
"""Compares generated scripts with `compare` and key by key: words PROGRAM CASES.

Each case is a set of two scripts. Values are below a small bound in every field, so that the model asks both sets for every key.
It takes from the output which lines were refused, and nothing else. Then two sets of many ranges are compared, with the same
elements in another order, and with one element less.
"""
import itertools
import random
import subprocess
import sys
import tempfile

SETS, MOMENT = 64, 60
BOUNDS = {1: 40, 2: 8, 3: 5}
LARGE = 20000


# ---- one set of a script: elements of ranges, each with a life in seconds or none

def range_text(part):
    return str(part[0]) if part[0] == part[1] else f"{part[0]}-{part[1]}"


def element_text(element):
    parts, life = element
    return " . ".join(map(range_text, parts)) + (f" timeout {life}s" if life else "")


def random_range(rng, bound):
    low, high = sorted(rng.choices(range(bound), k=2))
    return (low, high if rng.random() < 0.7 else low)


def random_elements(rng, fields):
    return [([random_range(rng, BOUNDS[fields]) for _ in range(fields)], rng.choice([None, None, None, 30, MOMENT, 90]))
            for _ in range(rng.randrange(7))]


def cut(rng, element):
    """The element in two, along a field."""
    parts, life = element
    wide = [f for f, (low, high) in enumerate(parts) if low < high]
    if not wide:
        return [element]
    f = rng.choice(wide)
    low, high = parts[f]
    middle = rng.randrange(low, high)
    return [(parts[:f] + [(low, middle)] + parts[f + 1:], life), (parts[:f] + [(middle + 1, high)] + parts[f + 1:], life)]


def changed(rng, elements):
    """The elements split and in another order; now and then without one of them, or with another one."""
    others = [piece for element in elements for piece in (cut(rng, element) if rng.random() < 0.6 else [element])]
    rng.shuffle(others)
    fate = rng.random()
    if fate < 0.3 and others:
        others.pop()
    return others


# ---- a script, and what its sets find

class Sets:
    """The sets of a script: how many fields each has, and its elements, of which each has a line of its own."""

    def __init__(self, name, fields, sets):
        self.name, self.fields, self.sets, self.lines, self.text = name, fields, sets, [], []
        for s, count in enumerate(fields):
            self.text.append(f"add set ip t s{s} {{ type {' . '.join(['inet_service'] * count)} ; flags interval, timeout ; }}")
        for s, elements in enumerate(sets):
            self.lines.append([])
            for element in elements:
                self.text.append(f"add element ip t s{s} {{ {element_text(element)} }}")
                self.lines[s].append(len(self.text))
        self.text += ["commit", f"at {MOMENT * 1000}"]

    def first(self, s, key, refused):
        """The id and the line of the first live element of a set that holds a key."""
        made = [(e, line) for e, line in zip(self.sets[s], self.lines[s]) if line not in refused]
        # an element with the intervals of an earlier one makes none; if it has a life, it renews that one's
        places = []
        for (parts, life), line in made:
            same = [place for place in places if place[0] == parts]
            if not same:
                places.append([parts, life, line])
            elif life is not None:
                same[0][1] = life
        for number, (parts, life, line) in enumerate(places):
            if (life is None or life > MOMENT) and all(low <= v <= high for (low, high), v in zip(parts, key)):
                return number, line
        return None


def expected(first, second, s, refused):
    """The lines of a set."""
    lines, missing = [], [None, None]
    for key in itertools.product(range(BOUNDS[first.fields[s]]), repeat=first.fields[s]):
        answers = [one.first(s, key, refused[one.name]) for one in (first, second)]
        for side in (0, 1):
            if missing[side] is None and answers[side] is not None and answers[1 - side] is None:
                missing[side] = (key, answers[side])
    for side, one, other in ((0, first, second), (1, second, first)):
        if missing[side]:
            key, (number, line) = missing[side]
            lines.append(f"differs ip t s{s}: {' . '.join(map(str, key))} is in element {number} of {one.name} (line {line})"
                         f" and in no element of {other.name}")
    return lines or [f"same ip t s{s}"]


def compare(program, room, first, second):
    for one in (first, second):
        with open(f"{room}/{one.name}", "w", encoding="ascii") as file:
            file.write("\n".join(one.text) + "\n")
    done = subprocess.run([program, "compare", "--keep-going", first.name, second.name], cwd=room, capture_output=True, text=True, check=False)
    return done.returncode, done.stdout.splitlines()


def check_small(program, room, rng):
    """A script of many small sets and one like it. Returns how many sets are the same, or ends the program."""
    fields = [rng.choice((1, 2, 2, 3)) for _ in range(SETS)]
    sets = [random_elements(rng, count) for count in fields]
    others = [changed(rng, e) if rng.random() < 0.7 else random_elements(rng, count) for e, count in zip(sets, fields)]
    first, second = Sets("old.nft", fields, sets), Sets("new.nft", fields, others)
    status, written = compare(program, room, first, second)
    refused = {first.name: set(), second.name: set()}
    while written and written[0].startswith("# "):
        words = written.pop(0).split()
        refused[words[1]].add(int(words[3]))
    wanted = [line for s in range(SETS) for line in expected(first, second, s, refused)]
    same = sum(line.startswith("same ") for line in wanted)
    wanted_status = 0 if same == SETS and not any(refused.values()) else 1
    if written != wanted or status != wanted_status:
        sys.exit(f"wrote {written}\nwith status {status}, and not {wanted}\nwith {wanted_status}, of\n"
                 + "\n".join(first.text) + "\nand\n" + "\n".join(second.text))
    return same


# ---- many ranges

def large_script(ranges):
    yield "add set ip t s { type ipv4_addr . inet_service ; flags interval ; }"
    for block, low, high, port, last in ranges:
        address = f"{10 + (block >> 16)}.{block >> 8 & 255}.{block & 255}"
        yield f"add element ip t s {{ {address}.{low}-{address}.{high} . {port}-{last} }}"


def check_large(program, room, rng):
    ranges = []
    for block in range(LARGE):
        low, high = sorted(rng.sample(range(256), 2))
        port, last = sorted(rng.sample(range(65536), 2))
        ranges.append((block, low, high, port, last))
    others = rng.sample(ranges, len(ranges))

    def ask(first, second):
        for name, some in (("old.nft", first), ("new.nft", second)):
            with open(f"{room}/{name}", "w", encoding="ascii") as file:
                file.write("\n".join(large_script(some)) + "\n")
        done = subprocess.run([program, "compare", "old.nft", "new.nft"], cwd=room, capture_output=True, text=True, check=False)
        return done.returncode, done.stdout

    if ask(ranges, others) != (0, "same ip t s\n"):
        sys.exit("two equal sets aren't the same")
    for number in rng.sample(range(LARGE), 3):
        block, low, _, port, _ = ranges[number]
        wanted = (f"differs ip t s: {10 + (block >> 16)}.{block >> 8 & 255}.{block & 255}.{low} . {port} is in element {number} of old.nft"
                  f" (line {number + 2}) and in no element of new.nft\n")
        found = ask(ranges, [other for other in others if other != ranges[number]])
        if found != (1, wanted):
            sys.exit(f"without element {number}: {found}, and not {wanted}")


def main():
    program, cases = sys.argv[1], int(sys.argv[2])
    rng = random.Random(20261201)
    with tempfile.TemporaryDirectory() as room:
        done = same = 0
        while done < cases:
            same += check_small(program, room, rng)
            done += SETS
        if not 0 < same < done:
            sys.exit(f"{same} of {done} sets are the same: the cases tell little")
        check_large(program, room, rng)


main()
