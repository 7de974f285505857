#!/usr/bin/env python3
"""Compares what `explain` writes with a model of it: words PROGRAM CASES.

Half of the scripts are random ones with sets of all kinds. In the others many elements hold one key, and some of them are expired.
"""
import random
import subprocess
import sys
import tempfile

from explanations import Explanation
from pairs import MIDDLE, SMALL, Pair

SEED = 20261201


def write(room, name, text):
    with open(f"{room}/{name}", "w", encoding="ascii") as file:
        file.write(text)


# ---- sets in which many elements hold one key

def nested_script(rng, fields):
    """Elements around one key, later ones wider, each with a life or none. They are in two sections."""
    yield f"add set ip t s {{ type {' . '.join(['inet_service'] * fields)} ; flags interval, timeout ; }}"
    for number in range(rng.randrange(1, 24)):
        reach = [2 * number + rng.randrange(2) for _ in range(fields)]
        parts = [f"{1000 - reach[field]}-{1000 + reach[field]}" if rng.random() < 0.9 else str(rng.randrange(990, 1010)) for field in range(fields)]
        life = f" timeout {rng.randrange(1, 9)}s" if rng.random() < 0.3 else ""
        comment = f' comment "number {number}"' if rng.random() < 0.3 else ""
        yield f"add element ip t s {{ {' . '.join(parts)}{life}{comment} }}"
        if rng.random() < 0.15:
            yield rng.choice(["commit", "abort", "round", "flush set ip t s"])
    yield "commit"


def nested_keys(rng, fields):
    for _ in range(rng.randrange(1, 30)):
        if rng.random() < 0.2:
            yield rng.choice(["round", f"at {rng.randrange(9000)}"])
        yield "ip t s " + " . ".join(str(rng.choice([1000, 1000, rng.randrange(940, 1060)])) for _ in range(fields))


def nested(rng):
    fields = rng.randrange(1, 5)
    return "\n".join(nested_script(rng, fields)) + "\n", "\n".join(nested_keys(rng, fields)) + "\n"


def generated(number):
    pair = Pair(SEED, number, MIDDLE if number % 20 == 0 else SMALL)
    return pair.script(), pair.keys()


# ---- the program beside the model

def check(program, room, texts, keep_going):
    """Returns the lines of the model, or ends the program."""
    write(room, "script", texts[0])
    write(room, "keys", texts[1])
    wanted = Explanation(*texts, keep_going)
    words = [program, "explain", "script", "keys"] + ["--keep-going"] * keep_going
    done = subprocess.run(words, cwd=room, capture_output=True, text=True, check=False)
    if (done.stdout, done.returncode) != (wanted.text(), wanted.status):
        sys.exit(f"wrote\n{done.stdout}with status {done.returncode}, and not\n{wanted.text()}with {wanted.status}, of\n{texts[0]}and\n{texts[1]}")
    return wanted.lines


def main():
    program, cases = sys.argv[1], int(sys.argv[2])
    rng = random.Random(SEED)
    fronts = ["# line ", "    element ", "    also in ", "    and ", "    no element", "    expired: ", "    nearest: ", "    the set has no live elements"]
    seen = dict.fromkeys(fronts, 0)
    with tempfile.TemporaryDirectory() as room:
        for number in range(cases):
            lines = check(program, room, generated(number) if number % 2 == 0 else nested(rng), rng.random() < 0.5)
            for front in fronts:
                seen[front] += any(line.startswith(front) for line in lines)
    rare = [front for front, count in seen.items() if count < cases // 100]
    if rare:
        sys.exit(f"the cases tell little of {rare}: {seen}")


main()
