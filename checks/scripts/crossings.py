#!/usr/bin/env python3
"""Sets of one rule an element, about as many as a field's groups of eight bits take: words PROGRAM.

A field is cut into groups of eight bits as long as their buckets, one bitmap of rules in words of 64 for each of 256 values,
take at most 2,097,152 bytes, and into groups of four above. For each kind a set gets as many elements as that allows, or one
more, of which one is then deleted, purged, or flushed away with all others. What `dump` writes is compared with the
tables that are made here, and what `run` answers with the numbers of the elements.
"""
import os
import subprocess
import sys
import tempfile

from tables import KINDS, element, most_rules, set_lines

FEW = 3


# ---- scripts

def script(kind, bits, text, count, ending):
    """A set of so many elements, and what comes behind them."""
    yield f"add set ip t s {{ type mark . {kind} ; flags timeout ; }}"
    for n in range(count):
        life = " timeout 1s" if n == count // 2 and "at 5000" in ending else ""
        yield f"add element ip t s {{ {element(text, bits, n)}{life} }}"
    yield "commit"
    yield from ending


def cases(bits, text):
    """What comes behind so many elements, which elements stay, and the lines of the commits."""
    most = most_rules(bits)
    gone = (most + 1) // 2
    others = [n for n in range(most + 1) if n != gone]
    delete = f"delete element ip t s {{ {element(text, bits, gone)} }}"
    few = [f"add element ip t s {{ {element(text, bits, n)} }}" for n in range(FEW)]
    yield "as many as go", most, [], [(n, n) for n in range(most)], [0]
    yield "one more", most + 1, [], [(n, n) for n in range(most + 1)], [0]
    yield "one more, deleted", most + 1, [delete, "commit"], [(n, n) for n in others], [0, 0]
    yield "one more, purged", most + 1, ["at 5000", "commit"], [(n, n) for n in others], [0, 1]
    yield "flushed", most + 1, ["flush set ip t s", *few, "commit"], [(n, most + 1 + n) for n in range(FEW)], [0, 0]
    yield "one more again", most + 1, [delete, "commit", delete.replace("delete", "add", 1), "commit"], \
        [(n, n) for n in others] + [(gone, most + 1)], [0, 0, 0]


# ---- comparisons

def written(program, folder, words):
    done = subprocess.run([program, *words], stdout=subprocess.PIPE, cwd=folder, timeout=600)
    return done.stdout.decode() if done.returncode == 0 else f"status {done.returncode}"


def is_right(program, folder, kind, bits, text, case):
    name, count, ending, elements, purged = case
    with open(os.path.join(folder, "script"), "w") as file:
        file.writelines(line + "\n" for line in script(kind, bits, text, count, ending))
    commits = [f"commit generation {i + 1} purged {n}" for i, n in enumerate(purged)]
    numbers = [n for n, _ in elements]
    tables = [f"# {line}" for line in commits] + list(set_lines(kind, bits, numbers))
    if written(program, folder, ["dump", "script"]) != "".join(line + "\n" for line in tables):
        return f"{kind}, {name}: other tables"
    asked = [*elements[:100], *elements[:: max(1, len(elements) // 100)], *elements[-100:]]
    with open(os.path.join(folder, "keys"), "w") as file:
        file.writelines(f"ip t s {element(text, bits, n)}\n" for n, _ in asked)
        file.write(f"ip t s {element(text, bits, count + 1)}\n")
    answers = [f"packet {i} thread 0 generation {len(purged)} element {id}" for i, (_, id) in enumerate(asked)]
    answers.append(f"packet {len(asked)} thread 0 generation {len(purged)} none")
    if written(program, folder, ["run", "script", "keys"]) != "".join(line + "\n" for line in commits + answers):
        return f"{kind}, {name}: other answers"
    return None


def main():
    program = sys.argv[1]
    tried, bad = 0, 0
    with tempfile.TemporaryDirectory() as folder:
        for kind, bits, text in KINDS:
            for case in cases(bits, text):
                wrong = is_right(program, folder, kind, bits, text, case)
                tried, bad = tried + 1, bad + (wrong is not None)
                if wrong:
                    print(wrong)
    print(f"crossings: {tried} sets, {bad} wrong")
    return bad > 0


if __name__ == "__main__":
    sys.exit(main())
