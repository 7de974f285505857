#!/usr/bin/env python3
"""Judges packets by random rules files, in the program and by a walk over the listed generation.

    judge.py run PROGRAM [SEED]    some hundred rules files, each with 1 and with 4 threads, and some hundred with a fault
    judge.py self-test             the walk answers the packets of the rules file in docs/formats.md as it has to

The sets are those that `pipapo list` shows of the script. Nothing of the walk is shared with the program.
"""

import random
import re
import subprocess
import sys
import tempfile

from rules import Chain, Rule, Rules, Test, judgement, listed
from transcripts import packets


FILES, FAULTS, MOST_CHAINS, MOST_RULES, MOST_TESTS = 300, 300, 4, 64, 4


# ---- scripts, rules files and key files

KINDS = [["inet_service"], ["inet_service"], ["ipv4_addr", "inet_service"]]


def value(rng, kind):
    return str(rng.randrange(60)) if kind == "inet_service" else f"10.0.0.{rng.randrange(16)}"


def interval(rng, kind):
    if kind == "inet_service":
        low = rng.randrange(55)
        return f"{low}-{low + rng.randrange(1, 20)}" if rng.random() < 0.5 else str(low)
    low = rng.randrange(12)
    return f"10.0.0.{low}-10.0.0.{low + rng.randrange(1, 8)}" if rng.random() < 0.5 else f"10.0.0.{low}"


class Case:
    """A script of three to six sets in one transaction, chains of rules over them, and packets."""

    def __init__(self, rng, most=MOST_RULES):
        self.rng = rng
        self.most = most
        self.sets = {f"s{number}": rng.choice(KINDS) for number in range(rng.randrange(3, 7))}
        self.rules = self.made_rules()

    def script(self):
        rng, lines = self.rng, []
        for name, kinds in self.sets.items():
            lines.append(f"add set ip t {name} {{ type {' . '.join(kinds)} ; flags interval, timeout ; }}")
            for _ in range(rng.randrange(6)):
                life = rng.choice(["", "", " timeout 2s", " timeout 5s"])
                lines.append(f"add element ip t {name} {{ {' . '.join(interval(rng, kind) for kind in kinds)}{life} }}")
        return "\n".join(lines) + "\n"

    def keys(self):
        rng, lines = self.rng, []
        for _ in range(rng.randrange(1, 80)):
            if rng.random() < 0.1:
                lines.append(f"at {1000 * rng.randrange(7)}")
            name = rng.choice(list(self.sets))
            lines.append(f"t {name} {' . '.join(value(rng, kind) for kind in self.sets[name])}")
        return "\n".join(lines) + "\n"

    def made_rule(self, place):
        rng = self.rng
        tests = [Test(("ip", "t", rng.choice(list(self.sets))), rng.random() < 0.6) for _ in range(rng.choice([0, 1, 1, 2, 2, 3, 4]))]
        act = rng.choice(["accept", "drop", "return"] + ["jump"] * (3 if place else 0))
        return Rule(tests, act, rng.randrange(place) if act == "jump" else None)

    def made_rules(self):
        rng = self.rng
        chains, left = [], self.most
        for place in range(rng.randint(1, MOST_CHAINS)):
            count = min(rng.choice([0, 1, 3, 6, 12, 30]), left)
            left -= count
            chains.append(Chain(f"c{place}", [self.made_rule(place) for _ in range(count)]))
        return Rules(chains, rng.random() < 0.5)

    def rule_text(self, rule):
        rng = self.rng
        tests = [f"{'in' if test.inside else 'out'} {rng.choice(['ip ', ''])}t {test.set[2]}" for test in rule.tests]
        target = [self.rules.chains[rule.target].name] if rule.act == "jump" else []
        return " ".join(tests + [rule.act] + target)

    def rule_lines(self):
        """The lines of the rules file, each rule and each brace on one of its own."""
        lines = []
        for chain in self.rules.chains:
            lines += [f"chain {chain.name} {{"] + [self.rule_text(rule) for rule in chain.rules] + ["}"]
        return lines + ["policy " + ("accept" if self.rules.accept else "drop")]

    def rules_text(self):
        """The same with other separators and with comments between them."""
        rng, text = self.rng, ""
        for line in self.rule_lines():
            text += line + rng.choice(["\n", "\n", "\n\n", " ;\n", " ; ", " # jump nowhere {\n"])
        return text


# ---- faults

def with_fault(case):
    """The lines of a rules file with one fault, the line that it stands in, and the reason."""
    rng, lines = case.rng, case.rule_lines()
    opens = [at for at, line in enumerate(lines) if line.startswith("chain")]
    place = rng.randrange(len(opens))
    at = opens[place] + 1 + rng.randrange(len(case.rules.chains[place].rules) + 1)
    name = rng.choice(list(case.sets))
    fault = rng.choice(["word", "set", "cut", "itself", "character", "act", "tests", "end", "twice", "behind", "many"])
    if fault == "end":
        return lines[:-1] + [""], len(lines), "end"
    if fault == "twice":
        closing = lines.index("}")
        return lines[:closing + 1] + [f"chain {case.rules.chains[0].name} {{ }}"] + lines[closing + 1:], closing + 2, "statement"
    if fault == "behind":
        return lines + ["policy drop"], len(lines) + 1, "statement"
    if fault == "many":
        more = MOST_RULES - sum(len(chain.rules) for chain in case.rules.chains)
        closing = len(lines) - 2
        return lines[:closing] + ["accept"] * (more + 1) + lines[closing:], closing + more + 1, "statement"
    line, reason = {
        "word": ("accept now", "statement"),
        "set": (f"in ip t {name} in t nowhere accept", "set"),
        "cut": ("in ip accept", "statement"),
        "itself": (f"jump {case.rules.chains[place].name}", "statement"),
        "character": (f"in ip t {name} @ accept", "character"),
        "act": (f"out t {name} reject", "statement"),
        "tests": (f"in t {name} " * (MOST_TESTS + 1) + "accept", "statement"),
    }[fault]
    return lines[:at] + [line] + lines[at:], at + 1, reason


# ---- the program

def said(program, *words):
    run = subprocess.run([program, *words], capture_output=True, text=True)
    return run.returncode, run.stdout


def write(folder, **texts):
    for name, text in texts.items():
        with open(f"{folder}/{name}", "w") as file:
            file.write(text)


def wanted(case, listing, keys):
    """The lines of a run: what the control told, and one for each packet, with `T` for its thread."""
    events = [line[2:] for line in listing.splitlines() if line.startswith("# ")]
    generation = sum(line.startswith("commit") for line in events)
    sets = listed(listing)
    lines = [f"packet {p} thread T generation {generation} {judgement(case.rules, sets, packet)}"
             for p, packet in enumerate(packets(keys, sets)[0])]
    return events + lines


def compare(program, folder, case, number):
    script, rules, keys = case.script(), case.rules_text(), case.keys()
    write(folder, script=script, rules=rules, keys=keys)
    names = [f"{folder}/{name}" for name in ("script", "rules", "keys")]
    _, listing = said(program, "list", names[0], "--keep-going")
    right = wanted(case, listing, keys)
    for threads in (1, 4):
        status, text = said(program, "judge", *names, "--keep-going", "--threads", str(threads))
        lines = [re.sub(rf"^(packet \d+ thread) [0-{threads - 1}] ", r"\1 T ", line) for line in text.splitlines()]
        if status not in (0, 1) or lines != right:
            print(f"rules file {number} with {threads} threads: status {status}, wrote")
            print("\n".join(f"    {line}  (wanted {other})" for line, other in zip(lines, right) if line != other))
            return False
    return True


def compare_fault(program, folder, case, number):
    lines, line, reason = with_fault(case)
    write(folder, script=case.script(), rules="\n".join(lines) + "\n" * (lines[-1] != ""), keys=case.keys())
    run = said(program, "judge", *(f"{folder}/{name}" for name in ("script", "rules", "keys")))
    if run != (9, f"pipapo: rules line {line}: {reason}\n"):
        print(f"rules file {number} with a fault: wrote {run}, and not line {line}: {reason}")
        return False
    return True


def run_all(program, seed):
    bad = 0
    with tempfile.TemporaryDirectory() as folder:
        for number in range(FILES):
            bad += not compare(program, folder, Case(random.Random(f"{seed}/{number}")), number)
        for number in range(FAULTS):
            bad += not compare_fault(program, folder, Case(random.Random(f"{seed}/fault/{number}"), MOST_RULES - 1), number)
    print(f"{FILES} rules files with 1 and 4 threads, {FAULTS} with a fault: {bad} wrong")
    return bad == 0


def self_test():
    """The chains of docs/formats.md on three ports, worked by hand."""
    sets = listed("table ip t {\n\tset ok {\n\t\ttype inet_service\n\t\tflags interval\n\t\telements = { 1-1000 }\n\t}\n\n"
                  "\tset bad {\n\t\ttype inet_service\n\t\telements = { 23 }\n\t}\n}\n")
    ok, bad = ("ip", "t", "ok"), ("ip", "t", "bad")
    rules = Rules([Chain("block", [Rule([Test(bad, True)], "drop", None)]),
                   Chain("main", [Rule([], "jump", 0), Rule([Test(ok, True)], "accept", None)])], False)
    lines = [judgement(rules, sets, packet) for packet in packets("ip t ok 23\nip t ok 80\nip t ok 2000\n", sets)[0]]
    return lines == ["rule 0 drop", "rule 2 accept", "policy drop"]


def main():
    if sys.argv[1] == "self-test":
        return self_test()
    return run_all(sys.argv[2], sys.argv[3] if len(sys.argv) > 3 else "2026")


if __name__ == "__main__":
    sys.exit(0 if main() else 1)
