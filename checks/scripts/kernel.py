"""Compares the program with the running kernel's sets: the same changes and the same lookups.

Run in a network namespace of its own, with the program's path as the one word. The kernel is asked by nft(8):
each change is a transaction of its own, and each lookup a `get element`. Only what the kernel and the program
are meant to share is compared: intervals are deleted where a lookup of their start key finds them. Marks are
left out, since nft 1.0.6 asks for them in the wrong order of bytes.
"""

import random
import subprocess
import sys
import tempfile

from nft_sets import found, nft, parts_text, text
from transcripts import BITS

# where the values of a kind are drawn from: few of them, so that intervals meet
BASE = {"ipv4_addr": 0x0A000000, "ipv6_addr": 0x20010DB8 << 96, "ether_addr": 0x005E00530000, "inet_proto": 0,
        "inet_service": 1000}
SPREAD = {"ipv4_addr": 700, "ipv6_addr": 700, "ether_addr": 300, "inet_proto": 200, "inet_service": 200}

SETS = [["ipv4_addr", "inet_service"], ["ipv6_addr", "inet_service", "inet_proto"], ["ether_addr", "inet_service"],
        ["ipv4_addr", "ipv4_addr", "inet_proto", "inet_service"]]


def drawn(rng, kinds):
    parts = []
    for kind in kinds:
        low = BASE[kind] + rng.randrange(SPREAD[kind])
        width = rng.choice([0, 0, 1, 7, 15, 40, 100])
        limit = (1 << BITS[kind]) - 1
        parts.append((low, min(low + width, limit)))
    return tuple(parts)


def drawn_key(rng, kinds, taken):
    if taken and rng.random() < 0.7:
        return [rng.randint(low, high) for low, high in rng.choice(taken)]
    return [BASE[kind] + rng.randrange(SPREAD[kind] + 40) for kind in kinds]


def compare(program, seed, kinds, changes, lookups):
    """Whether the kernel and the program agree on so many changes and lookups."""
    rng = random.Random(seed)
    nft("flush", "ruleset")
    nft("add", "table", "ip", "t")
    declaration = f"add set ip t s {{ type {' . '.join(kinds)} ; flags interval ; }}"
    if nft(declaration).returncode != 0:
        print(f"kernel.py: the kernel takes no set of {' . '.join(kinds)}")
        return False
    script, refused, taken, ids = [declaration], [], [], {}
    for _ in range(changes):
        if taken and rng.random() < 0.2:
            parts = rng.choice(taken)
            if found(kinds, [low for low, high in parts]) != parts:
                continue
            verb = "delete"
            taken.remove(parts)
        else:
            parts = drawn(rng, kinds)
            verb = "add"
        change = f"{verb} element ip t s {{ {parts_text(kinds, parts)} }}"
        done = nft(change)
        script.append(change)
        if done.returncode != 0:
            refused.append(len(script))
        elif verb == "add" and parts not in taken:
            taken.append(parts)
            ids[len(ids)] = parts
        script.append("commit")
    keys, answers = [], []
    for _ in range(lookups):
        key = drawn_key(rng, kinds, taken)
        answers.append(found(kinds, key))
        keys.append("ip t s " + " . ".join(text(kind, value) for kind, value in zip(kinds, key)))
    with tempfile.TemporaryDirectory() as folder:
        for name, lines in (("script", script), ("keys", keys)):
            with open(f"{folder}/{name}", "w") as file:
                file.write("\n".join(lines) + "\n")
        run = subprocess.run([program, "run", "script", "keys", "--keep-going"], cwd=folder, capture_output=True, text=True)
    lines = run.stdout.splitlines()
    ours = [int(line.split()[1]) for line in lines if " refused overlap " in line]
    verdicts = [line.split() for line in lines if line.startswith("packet ")]
    here = [ids.get(int(words[7])) if words[6] == "element" else None for words in verdicts]
    same = ours == refused and here == answers
    hits = sum(answer is not None for answer in answers)
    print(f"{' . '.join(kinds)}: {len(ids)} elements added, {len(refused)} refused, {len(answers)} lookups, {hits} found:",
          "the same" if same else "NOT THE SAME")
    if not same:
        print("refused by the kernel in lines", refused, "and here in", ours)
        for key, there, mine in zip(keys, answers, here):
            if there != mine:
                print(key, "finds", there and parts_text(kinds, there), "and here", mine and parts_text(kinds, mine))
        if not verdicts:
            print(run.stdout[:300])
    return same


if __name__ == "__main__":
    agreed = [compare(sys.argv[1], seed, kinds, 150, 200) for seed, kinds in enumerate(SETS)]
    sys.exit(0 if all(agreed) else 1)
