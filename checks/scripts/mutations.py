"""Cuts and flips bits of all listings and examples, and looks at what the program says of them: words PROGRAM.

A text that was cut or flipped is read or refused, and nothing else comes of it: the status is one of 0, 1 and that of a
refused text, and a refusal is its one line with one of the known reasons and a line that the text has. The standard error has
nothing with status 0, something with each other, the refusal's own line and a column of it, and nothing that moves a terminal.
What is drawn is the same each time.

Rulesets and listings go through `sets`, too. Its output is what checks/models/kept_text.py keeps of the text, if `list` reads that
as a script, and else the place and the reason for which `list` refuses it. Its notes are the model's. `list --sets` prints of the
text what `list` prints of the kept one.
"""
import glob
import os
import random
import re
import subprocess
import sys
import tempfile

from kept_text import kept_of

CUTS, FLIPS = 12, 24
REASONS = "character|end|left out|type|value|time|moment|set|number|statement"


def mutants(rng, text):
    """The text cut at some places, and with some bits flipped."""
    for _ in range(CUTS):
        yield text[: rng.randrange(len(text) + 1)]
    for _ in range(FLIPS):
        flipped = bytearray(text)
        for _ in range(rng.choice([1, 1, 2])):
            flipped[rng.randrange(len(text))] ^= 1 << rng.randrange(8)
        yield bytes(flipped)


def printable(run):
    return re.fullmatch(rb"[\t\n -~]*", run.stderr)


def complaint(run, path, text, what, refused):
    """What is wrong with a run of the program, or none."""
    if not printable(run) or (run.returncode == 0) != (run.stderr == b""):
        return f"status {run.returncode} with this on the standard error: {run.stderr[:200]!r}"
    if run.returncode in (0, 1):
        return None
    if run.returncode != refused:
        return f"status {run.returncode}"
    line = re.fullmatch(rf"pipapo: {what} line ([1-9][0-9]*): (?:{REASONS})\n", run.stdout.decode(errors="replace"))
    if not line:
        return f"status {refused} with {run.stdout[:200]!r}"
    if int(line.group(1)) > text.count(b"\n") + 1:
        return f"a line that isn't there: {line.group(1)}"
    place = re.match(rf"{re.escape(path)}:([0-9]+):([0-9]+): ", run.stderr.decode())
    if not place or place[1] != line[1] or int(place[2]) > len(text.split(b"\n")[int(line[1]) - 1]) + 1:
        return f"line {line[1]} with this on the standard error: {run.stderr[:200]!r}"
    return None


def sets_complaint(program, path, text):
    """What is wrong with `sets` and `list --sets` of a text, or none."""
    kept, notes, lost = kept_of(text)
    script = path + ".kept"
    with open(script, "wb") as file:
        file.write(kept)
    listed = subprocess.run([program, "list", script], capture_output=True)
    run = subprocess.run([program, "sets", path], capture_output=True)
    through = subprocess.run([program, "list", "--sets", path], capture_output=True)
    if not printable(run) or not printable(through):
        return f"this on the standard error: {run.stderr[:200]!r}"
    if (through.returncode, through.stdout) != (listed.returncode, listed.stdout):
        return f"list --sets has status {through.returncode} and prints {through.stdout[:200]!r}, not {listed.stdout[:200]!r}"
    said = "".join(f"{path}:{note}\n" for note in notes)
    if listed.returncode == 3:
        due = (3, listed.stdout.replace(b"script", b"ruleset", 1))
    else:
        due = (1 if lost else 0, kept)
        if run.stderr.decode() != said or not through.stderr.decode().startswith(said):
            return f"these notes: {run.stderr[:300]!r}, not {said[:300]!r}"
    return None if (run.returncode, run.stdout) == due else f"status {run.returncode} and {run.stdout[:200]!r}, not {due!r}"


def texts():
    """Each text with the words before its own name, what a refusal calls it, and the refusal's status."""
    for name in sorted(glob.glob("checks/listings/*.nft") + glob.glob("examples/*/*.nft")):
        yield name, ["list"], "script", 3
    for name in sorted(glob.glob("checks/rulesets/*.nft") + glob.glob("checks/listings/*.nft")):
        yield name, ["sets"], "ruleset", 3
    for name in sorted(glob.glob("examples/*/*.keys")):
        yield name, ["run", glob.glob(f"{os.path.dirname(name)}/*.nft")[0]], "keys", 4


def main():
    program, rng, counts, bad = sys.argv[1], random.Random(2026), {}, 0
    with tempfile.TemporaryDirectory() as folder:
        path = f"{folder}/text"
        for name, words, what, refused in texts():
            with open(name, "rb") as file:
                whole = file.read()
            for text in mutants(rng, whole):
                with open(path, "wb") as file:
                    file.write(text)
                run = subprocess.run([program, *words, path], capture_output=True)
                counts[run.returncode] = counts.get(run.returncode, 0) + 1
                if what == "ruleset":
                    wrong = sets_complaint(program, path, text)
                else:
                    wrong = complaint(run, path, text, what, refused)
                if wrong:
                    bad += 1
                    print(f"{name}, cut or flipped: {wrong}")
    told = ", ".join(f"{counts[status]} with status {status}" for status in sorted(counts))
    print(f"{sum(counts.values())} texts that were cut or flipped: {told}")
    sys.exit(1 if bad or len(counts) < 3 else 0)


main()
