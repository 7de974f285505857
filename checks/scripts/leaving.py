#!/usr/bin/env python3
"""Sets that elements leave, one by one and many at once, beside plain lists: words PROGRAM [SEED].

Each script makes a set and changes it at random for some forty transactions: additions with and without lives, renewals,
deletions of elements that are there or missing, flushes, aborts, and commits at rising moments. Packets ask between them for
elements that are there, have left, are expired or never were, at moments before and behind the commit's. The transcript is
compared with that of a plain list, and what `dump` writes with tables by the definition.
"""
import os
import random
import subprocess
import sys
import tempfile

from plain_list import Plain
from tables import KINDS, element, set_lines

SIZES = [6, 40, 700, 3000]
TRANSACTIONS = 40


# ---- a script, its keys and its transcript

class Trial:
    def __init__(self, chance, kind, bits, text, count, size):
        self.chance, self.count, self.name = chance, count, lambda n: element(text, bits, n)
        self.plain = Plain(size)
        limit = f" size {size} ;" if size is not None else ""
        self.script = [f"add set ip t s {{ type mark . {kind} ; flags timeout ;{limit} }}"]
        self.keys, self.lines, self.packets = [], [], 0
        for n in range(count):
            self.add(n)
        self.commit()
        for _ in range(TRANSACTIONS):
            self.transaction()

    def say(self, line):
        self.script.append(line)

    def told(self, why):
        if why:
            self.lines.append(f"line {len(self.script)} refused {why} ip t s")

    def add(self, n):
        life = self.chance.choice([0, 0, 1, 5, 50]) * 1000
        self.say(f"add element ip t s {{ {self.name(n)}{f' timeout {life // 1000}s' if life else ''} }}")
        self.told(self.plain.add(n, life))

    def remove(self, n):
        word = self.chance.choice(["delete", "destroy"])
        self.say(f"{word} element ip t s {{ {self.name(n)} }}")
        why = self.plain.remove(n)
        self.told(why if word == "delete" else None)

    def some(self):
        """A number of the set's, most often."""
        if self.plain.open and self.chance.random() < 0.8:
            return self.chance.choice(self.plain.open)[0]
        return self.chance.randrange(2 * self.count)

    def change(self):
        kind = self.chance.random()
        if kind < 0.4:
            self.add(self.some() if self.chance.random() < 0.3 else self.chance.randrange(2 * self.count))
        elif kind < 0.998:
            self.remove(self.plain.open[0][0] if self.plain.open and self.chance.random() < 0.3 else self.some())
        else:
            self.say("flush set ip t s")
            self.plain.open = []

    def transaction(self):
        if self.chance.random() < 0.6:
            self.plain.now += self.chance.choice([1, 500, 1000, 4000])
            self.say(f"at {self.plain.now}")
        for _ in range(self.chance.choice([0, 1, 1, 2, 5, self.count // 3])):
            self.change()
        if self.chance.random() < 0.1:
            self.say("destroy element ip t s { " + self.name(3 * self.count) + " }")
            self.say("abort")
            self.lines.append(self.plain.abort())
        self.commit()

    def commit(self):
        """A commit, and a section of packets that find its generation."""
        self.say("commit")
        self.lines.append(self.plain.commit())
        self.script += ["round", "round"]
        for _ in range(5):
            n = self.some()
            moment = max(0, self.plain.now + self.chance.choice([-600, 0, 1, 2500]))
            self.keys += [f"at {moment}", f"ip t s {self.name(n)}"]
            self.lines.append(f"packet {self.packets} thread 0 {self.plain.answer(n, moment)}")
            self.packets += 1
        self.keys += ["round", "round"]


def answered(program, folder, words):
    """What a run writes that may have refusals, of which a person is told more on the standard error."""
    done = subprocess.run([program, *words], stdout=subprocess.PIPE, stderr=subprocess.DEVNULL, cwd=folder, timeout=600)
    return done.stdout.decode() if done.returncode in (0, 1) else f"status {done.returncode}"


def is_right(program, folder, trial, kind, bits):
    for name, lines in ("script", trial.script), ("keys", trial.keys):
        with open(os.path.join(folder, name), "w") as file:
            file.writelines(line + "\n" for line in lines)
    if answered(program, folder, ["run", "script", "keys", "--keep-going"]) != "".join(line + "\n" for line in trial.lines):
        return "another transcript"
    events = [f"# {line}" for line in trial.lines if not line.startswith("packet")]
    tables = events + list(set_lines(kind, bits, [e[0] for e in trial.plain.base]))
    if answered(program, folder, ["dump", "script", "--keep-going"]) != "".join(line + "\n" for line in tables):
        return "other tables"
    return None


def main():
    program, seed = sys.argv[1], int(sys.argv[2]) if len(sys.argv) > 2 else 1
    chance = random.Random(seed)
    tried, bad = 0, 0
    with tempfile.TemporaryDirectory() as folder:
        for count in SIZES:
            for kind, bits, text in KINDS:
                size = chance.choice([None, None, count + count // 10])
                wrong = is_right(program, folder, Trial(chance, kind, bits, text, count, size), kind, bits)
                tried, bad = tried + 1, bad + (wrong is not None)
                if wrong:
                    print(f"{kind}, {count} elements, seed {seed}: {wrong}")
    print(f"leaving: {tried} scripts, {bad} answered wrongly")
    return bad > 0


if __name__ == "__main__":
    sys.exit(main())
