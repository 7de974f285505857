#!/usr/bin/env python3
"""Runs the program on generated scripts and key files with 1 to 16 threads, and judges every transcript.

    threads.py run PROGRAM [SEED]       some hundred runs, and the summaries of generated workloads
    threads.py self-test                the judge accepts legal transcripts and refuses wrong ones, each for its reason
    threads.py write SEED NUMBER        writes that script and key file into `script` and `keys`
    threads.py judge SCRIPT KEYS THREADS STATUS [--keep-going]    judges the transcript on the standard input
    threads.py example FOLDER           judges the transcript of an example, with a line of its status behind it
"""

import collections
import concurrent.futures
import os
import random
import re
import subprocess
import sys
import tempfile

from pairs import LONG, SCALES, Pair, Scale
from transcripts import BATCH, History, Illegal, Refused, Script, State
from transcripts import add, first, holds, judge, live, packets

# ---- runs

def run_pair(program, seed, number):
    """How many transcripts of a pair were judged, how many with more than one generation in a section, and the faults."""
    pair = Pair(seed, number, SCALES[number])
    texts = pair.script(), pair.keys()
    script = Script(texts[0])
    keys = packets(texts[1], script.sets)
    judged, mixed, faults = 0, 0, []
    with tempfile.TemporaryDirectory() as folder:
        for name, text in zip(("script", "keys"), texts):
            with open(f"{folder}/{name}", "w") as file:
                file.write(text)
        for mode in [["--keep-going"]] if pair.scale is LONG else [[], ["--keep-going"]]:
            history = History(script, bool(mode))
            for threads in pair.rng.sample(range(1, 17), pair.scale.runs):
                words = ["run", "script", "keys", "--threads", str(threads), *mode]
                run = subprocess.run([program, *words], cwd=folder, capture_output=True, text=True)
                judged += 1
                try:
                    mixed += judge(history, keys, threads, run.stdout, run.returncode) > 0
                except Illegal as why:
                    faults.append(f"seed {seed}, pair {number}, {' '.join(words)}: {': '.join(why.args)}"[:600])
    return judged, mixed, faults


def run_all(program, seed):
    print(f"seed {seed}")
    judged, mixed, faults = 0, 0, drill_faults(program, seed)
    with concurrent.futures.ProcessPoolExecutor() as pool:
        for done in pool.map(run_pair, [program] * len(SCALES), [seed] * len(SCALES), range(len(SCALES))):
            judged, mixed, faults = judged + done[0], mixed + done[1], faults + done[2]
    print(f"{judged} transcripts judged, {mixed} of them with packets of two generations in a section")
    if mixed == 0:
        faults.append("no run had packets of two generations in a section")
    for fault in faults:
        print(fault)
    return not faults


# ---- generated workloads

def drill_line(seed, count):
    """The summary of a generated workload."""
    state = seed % (1 << 31)

    def draw():
        nonlocal state
        state = (state * 1103515245 + 12345) % (1 << 31)
        return state >> 15

    # intervals and spans of all elements, those that are refused too
    drawn, held, refused = [], State(None, False, (), 0), 0
    for _ in range(count):
        high, low, spans, port = draw(), draw(), draw(), draw()
        low, wide, long = (high << 16) + low, spans % 256, spans // 256 % 16
        parts = (low, min(low + wide, (1 << 32) - 1)), (port, min(port + long, 65535))
        drawn.append((parts, wide, long))
        held, answer = add(held, parts, None, 0)
        refused += isinstance(answer, Refused)
    matched, total = 0, 0
    for packet in range(count):
        if packet % 2 == 0:
            ((low, high), (port, last)), wide, long = drawn[draw() % count]
            offset = draw()
            key = min(low + offset % (wide + 1), high), min(port + offset % (long + 1), last)
        else:
            high, low, port = draw(), draw(), draw()
            key = (high << 16) + low, port
        element = first(held, key, 0)
        if element is not None:
            matched, total = matched + 1, total + element.id
    return f"drill elements {len(held.elements)} refused {refused} generation 1 packets {count} matched {matched} sum {total}\n"


def drill_faults(program, seed):
    faults = []
    for seed, count in ((1, 2), (7, 300), (seed, 400)):
        wanted = drill_line(seed, count)
        for threads in (1, 4, 16):
            run = subprocess.run([program, "drill", str(seed), str(count), "--threads", str(threads)],
                                 capture_output=True, text=True)
            if (run.stdout, run.returncode) != (wanted, 0):
                faults.append(f"drill {seed} {count} --threads {threads}: {run.stdout.strip()} in place of {wanted.strip()}")
    return faults


# ---- wrong transcripts

class Run:
    """A legal transcript of a pair, drawn as a schedule of threads may give it."""

    def __init__(self, seed, number):
        pair = Pair(seed, number, TRIED)
        self.rng = rng = pair.rng
        script = Script(pair.script())
        self.keys = packets(pair.keys(), script.sets)
        self.history = History(script, rng.random() < 0.8)
        self.status = 1 if self.history.refuses() else 0
        # the other threads of sixteen answer nothing
        self.busy = rng.randrange(1, 16)
        self.newest = [0] * 16
        self.number = 0
        self.sections = [self.drawn(j, section) for j, section in enumerate(self.keys, 1)]

    def bounds(self, j):
        return self.history.last_after(j - 1), self.history.last_after(j)

    def drawn(self, j, section):
        """A line for each packet of a section, with a thread for each batch."""
        low, high = self.bounds(j)
        lines, thread = [], 0
        for place, packet in enumerate(section):
            if place % BATCH == 0:
                thread = self.rng.randrange(self.busy)
            least = max(low, self.newest[thread])
            generation = self.rng.randint(least, min(high, least + 1))
            self.newest[thread] = generation
            lines.append(self.line(packet, thread, generation))
            self.number += 1
        return lines

    def line(self, packet, thread, generation, verdict=None, number=None):
        verdict = verdict or self.history.verdict(generation, packet)
        number = self.number if number is None else number
        return f"packet {number} thread {thread} generation {generation} {verdict}"

    def lines(self):
        """All lines, each with its section and its place there, or with no place for a control line."""
        found = []
        for j in range(max(len(self.history.lines), len(self.keys) + 1)):
            found += [(j, None, line) for line in self.history.lines_of(j)]
            if 1 <= j <= len(self.keys):
                found += [(j, place, line) for place, line in enumerate(self.sections[j - 1])]
        return found

    def text(self):
        return "".join(line + "\n" for _, _, line in self.lines())

    def judged(self, text, status):
        """The rule that a transcript breaks, or none."""
        try:
            judge(self.history, self.keys, 16, text, status)
            return None
        except Illegal as why:
            return why.args[0]


def words_of(line):
    """Number, thread, generation and verdict of a packet's line."""
    words = line.split(" ", 6)
    return int(words[1]), int(words[3]), int(words[5]), words[6]


# the pairs on whose transcripts the judge is tried
TRIED = Scale((1, 4), (2, 12), (20, 200), 0)

# the wrong transcripts, each with the rules of which it breaks one
WRONG = {
    "a line twice": ("lines", "control"),
    "a missing line": ("lines", "control"),
    "two lines in the other order": ("lines",),
    "another number": ("lines",),
    "a leading zero": ("lines",),
    "one more line": ("lines",),
    "a line without an end": ("lines",),
    "a missing control line": ("control",),
    "a control line twice": ("control", "lines"),
    "another control line": ("control",),
    "a control line behind a packet": ("control",),
    "a thread that isn't there": ("thread",),
    "a batch of two threads": ("batch",),
    "a stale generation": ("generation",),
    "a generation of a later section": ("generation",),
    "a generation that falls": ("falls",),
    "a verdict of another generation": ("verdict",),
    "a later element": ("verdict",),
    "an expired element": ("verdict",),
    "no element": ("verdict",),
    "another status": ("status",),
}


def packet_mutants(run, j, place, line):
    """What may stand in place of a packet's line to make a transcript wrong."""
    number, thread, generation, verdict = words_of(line)
    packet, (low, high) = run.keys[j - 1][place], run.bounds(j)

    def wrong(thread=thread, generation=generation, verdict=None, number=number):
        return [run.line(packet, thread, generation, verdict, number)]

    yield "a line twice", [line, line]
    yield "a missing line", []
    yield "another number", wrong(number=number + 1)
    yield "a leading zero", [line.replace("packet ", "packet 0")]
    if place % BATCH > 0:
        yield "a batch of two threads", wrong(thread=15)
    else:
        yield "a thread that isn't there", wrong(thread=16)
    if low > 0:
        yield "a stale generation", wrong(generation=low - 1)
    if high + 1 < len(run.history.generations):
        yield "a generation of a later section", wrong(generation=high + 1)
    others = {run.history.verdict(other, packet) for other in range(low, high + 1)} - {verdict}
    for other in sorted(others)[:1]:
        yield "a verdict of another generation", wrong(verdict=other)
    for other in run.history.generations[generation][packet.set].elements:
        if holds(other, packet.key) and verdict != f"element {other.id}":
            name = "a later element" if live(other, packet.now) else "an expired element"
            yield name, wrong(verdict=f"element {other.id}")
    if verdict != "none":
        yield "no element", wrong(verdict="none")


def mutants(run):
    """Wrong transcripts, each with its name and status."""
    lines = run.lines()

    def text(*changed):
        found = [[line] for _, _, line in lines]
        for at, other in changed:
            found[at] = other
        return "".join(line + "\n" for group in found for line in group), run.status

    controls = [at for at, (_, place, _) in enumerate(lines) if place is None]
    told = [at for at, (_, place, _) in enumerate(lines) if place is not None]
    for at in run.rng.sample(told, min(20, len(told))):
        for name, other in packet_mutants(run, *lines[at]):
            yield name, text((at, other))
    for at in run.rng.sample(told[:-1], min(10, len(told[:-1]))):
        j, place, line = lines[at]
        low, high = run.bounds(j)
        if place + 1 < len(run.keys[j - 1]):
            yield "two lines in the other order", text((at, [lines[at + 1][2]]), (at + 1, [line]))
        if low < high and place % BATCH + 1 < BATCH and place + 1 < len(run.keys[j - 1]):
            number, thread, _, _ = words_of(line)
            new = run.line(run.keys[j - 1][place], thread, high, number=number)
            old = run.line(run.keys[j - 1][place + 1], thread, low, number=number + 1)
            yield "a generation that falls", text((at, [new]), (at + 1, [old]))
    for at in run.rng.sample(controls, min(10, len(controls))):
        line = lines[at][2]
        yield "a missing control line", text((at, []))
        yield "a control line twice", text((at, [line, line]))
        yield "another control line", text((at, [line + "0"]))
        if at + 1 in told:
            yield "a control line behind a packet", text((at, [lines[at + 1][2]]), (at + 1, [line]))
    yield "one more line", (run.text() + "abort generation 0\n", run.status)
    yield "another status", (run.text(), 1 - run.status)
    if lines:
        yield "a line without an end", (run.text()[:-1], run.status)


def self_test():
    refused, faults = collections.Counter(), worked_examples()
    for number in range(40):
        run = Run(2026, number)
        broken = run.judged(run.text(), run.status)
        if broken is not None:
            faults.append(f"pair {number}: a legal transcript is refused: {broken}")
        for name, (text, status) in mutants(run):
            broken = run.judged(text, status)
            refused[name] += 1
            if broken not in WRONG[name]:
                faults.append(f"pair {number}: {name}: {broken}")
    faults += [f"not tried: {name}" for name in WRONG if refused[name] == 0]
    print(f"{sum(refused.values())} wrong transcripts of {len(refused)} kinds judged")
    for fault in faults[:20]:
        print(fault)
    return not faults


EXAMPLES = os.path.join(os.path.dirname(os.path.abspath(__file__)), "..", "..", "examples")


# what `--elements` prints after an element's id: its addition, and the addition's line
ADDITION = re.compile(r"( element \d+) \{ (.*) \} line (\d+)$", re.M)


def without_additions(script, transcript):
    """A transcript as it is without `--elements`. An addition that isn't in the script's line stays, so its line is refused."""
    lines = script.split("\n")
    return ADDITION.sub(lambda found: found[1] if found[2] in lines[int(found[3]) - 1] else found[0], transcript)


def judge_example(folder, text):
    """Whether a transcript with the line of its status behind it is legal for an example that is a run."""
    def read(name):
        with open(os.path.join(folder, name)) as file:
            return file.read()

    words = read("words").split()
    threads = int(words.pop(words.index("--threads") + 1)) if "--threads" in words else 1
    files = [word for word in words[1:] if not word.startswith("-")]
    transcript, status = text.rstrip("\n").rsplit("status ", 1)
    if "--elements" in words:
        transcript = without_additions(read(files[0]), transcript)
    return broken_rules(read(files[0]), read(files[1]), threads, "--keep-going" in words, transcript, int(status))


def worked_examples():
    """The transcripts in examples/ that aren't found to be legal."""
    faults = []
    for name in sorted(os.listdir(EXAMPLES)):
        folder = os.path.join(EXAMPLES, name)
        # a folder without words is no run of the program
        if not os.path.exists(os.path.join(folder, "words")):
            continue
        with open(os.path.join(folder, "words")) as words, open(os.path.join(folder, "transcript")) as transcript:
            text = transcript.read()
            if words.read().startswith("run") and not text.startswith("pipapo: "):
                status = 1 if " refused " in text else 0
                faults += [f"examples/{name}: {why}" for why in judge_example(folder, f"{text}status {status}\n")]
    return faults


def broken_rules(script, keys, threads, keep_going, text, status):
    """The rule that a transcript breaks, or nothing."""
    script = Script(script)
    try:
        judge(History(script, keep_going), packets(keys, script.sets), threads, text, status)
        return []
    except Illegal as why:
        return [": ".join(why.args)]


def judge_files(script, keys, threads, status, keep_going):
    with open(script) as script, open(keys) as keys:
        return broken_rules(script.read(), keys.read(), threads, keep_going, sys.stdin.read(), status)


def told(faults):
    """Whether there are no faults. They are printed."""
    for fault in faults:
        print(f"not legal: {fault}")
    return not faults


def main(words):
    if words[:1] == ["run"] and len(words) in (2, 3):
        return run_all(words[1], int(words[2]) if len(words) == 3 else random.randrange(1000000))
    if words == ["self-test"]:
        return self_test()
    if words[:1] == ["write"] and len(words) == 3:
        number = int(words[2])
        pair = Pair(int(words[1]), number, SCALES[number])
        for name, text in (("script", pair.script()), ("keys", pair.keys())):
            with open(name, "w") as file:
                file.write(text)
        return True
    if words[:1] == ["judge"] and len(words) in (5, 6):
        return told(judge_files(words[1], words[2], int(words[3]), int(words[4]), len(words) == 6))
    if words[:1] == ["example"] and len(words) == 2:
        return told(judge_example(words[1], sys.stdin.read()))
    sys.exit(__doc__)


if __name__ == "__main__":
    sys.exit(0 if main(sys.argv[1:]) else 1)
