#!/usr/bin/env python3
"""Runs scripts by several control threads, and judges what the program tells of them.

    desk.py run PROGRAM [SEED]    some hundred scripts of 2 to 16 control threads, and one script many times
    desk.py self-test             the judge accepts a right output and refuses wrong ones, each for its reason
    desk.py example FOLDER        judges the output of an example, with a line of its status behind it, and its transcript

An output names the control thread of each transaction. So it names an order of all of them, and has to tell what the
transactions come to in this order, by docs/formats.md alone. Nothing of the judge is shared with the program.
"""

import concurrent.futures
import random
import re
import subprocess
import sys
import tempfile

from desks import order_of
from pairs import Pair, Scale
from transcripts import Illegal, Script

SCRIPTS, AGAIN, MOST_CLERKS = 240, 120, 16


# ---- runs

def desk(program, folder, name, *options):
    run = subprocess.run([program, "desk", name, *options], cwd=folder, capture_output=True, text=True)
    return run.stdout, run.returncode


def script_of(seed, number, clerks):
    pair = Pair(seed, number, Scale((clerks + 1, clerks + 1), (0, 6), (0, 1), 0))
    return pair.script()


def run_one(program, seed, number):
    """The faults of a script in both modes, and whether its control threads took turns."""
    rng = random.Random(f"{seed}/desk/{number}")
    clerks = rng.choice([1, 2, 2, 3, 4, 8, MOST_CLERKS])
    text = script_of(f"{seed}/desk", number, clerks)
    script, faults, mixed = Script(text), [], 0
    with tempfile.TemporaryDirectory() as folder:
        with open(f"{folder}/script", "w") as file:
            file.write(text)
        for options in [[], ["--keep-going"]]:
            output, status = desk(program, folder, "script", *options)
            try:
                order = order_of(script, bool(options), output, status)
                mixed += list(order) != sorted(order)
            except Illegal as why:
                faults.append(f"seed {seed}, script {number} {' '.join(options)}: {': '.join(why.args)}"[:600])
    return faults, mixed


def rivals(clerks, each):
    """Control threads of which all change one set: each transaction adds an element of its own."""
    lines = ["add set ip t p { type inet_service ; flags interval ; }"]
    for clerk in range(clerks):
        lines.append("round")
        for number in range(each):
            lines += [f"add element ip t p {{ {1000 * (clerk + 1) + number} }}", "commit"]
    return "\n".join(lines) + "\n"


def run_again(program, number):
    """The order of one script's run, or a fault."""
    text = rivals(2 + number % 15, 4)
    with tempfile.TemporaryDirectory() as folder:
        with open(f"{folder}/script", "w") as file:
            file.write(text)
        output, status = desk(program, folder, "script")
    try:
        return order_of(Script(text), False, output, status), None
    except Illegal as why:
        return None, f"rivals {number}: {': '.join(why.args)}"[:600]


def too_many(program):
    """With one section more than there may be control threads the script is refused by its name."""
    faults = []
    with tempfile.TemporaryDirectory() as folder:
        for clerks in (MOST_CLERKS, MOST_CLERKS + 1):
            with open(f"{folder}/a.nft", "w") as file:
                file.write("add set ip t p { type inet_service ; flags interval ; }\n" + "round\n" * clerks)
            output, status = desk(program, folder, "a.nft")
            right = ("pipapo: too many clerks: a.nft\n", 12) if clerks > MOST_CLERKS else (output if output.startswith("table ") else "", 0)
            if (output, status) != right:
                faults.append(f"{clerks} control threads: status {status}, {output!r}")
    return faults


def run_all(program, seed):
    faults, mixed, orders = too_many(program), 0, set()
    with concurrent.futures.ProcessPoolExecutor() as pool:
        for found, crossed in pool.map(run_one, [program] * SCRIPTS, [seed] * SCRIPTS, range(SCRIPTS)):
            faults, mixed = faults + found, mixed + crossed
        for order, fault in pool.map(run_again, [program] * AGAIN, range(AGAIN)):
            orders.add(order)
            faults += [fault] if fault else []
    print(f"{2 * SCRIPTS} outputs judged, in {mixed} of them the control threads took turns; "
          f"{AGAIN} runs of rivals in {len(orders)} orders")
    if mixed == 0:
        faults.append("no control threads took turns")
    for fault in faults:
        print(fault)
    return not faults


# ---- wrong outputs

RIGHT = """# commit generation 1 purged 0
# clerk 2 commit generation 2 purged 0
# clerk 1 line 4 refused exists ip t p element 1
# clerk 1 fail generation 2
# clerk 2 abort generation 2
table ip t {
	set p {
		type inet_service
		flags interval
		elements = { 22, 80 }
	}
}
"""
TRIED = """add set ip t p { type inet_service ; flags interval ; }
add element ip t p { 22 }
round
create element ip t p { 80 }
round
add element ip t p { 80 }
commit
add element ip t p { 443 }
abort
"""
WRONG = {
    "left out": [("# clerk 2 abort generation 2\n", "")],
    "clerk": [("# clerk 2 abort generation 2\n", "# clerk 2 abort generation 2\n# clerk 2 abort generation 2\n"),
              ("# clerk 2 abort", "# clerk 3 abort")],
    "told": [("# clerk 1 fail generation 2", "# clerk 1 fail generation 1"),
             ("# clerk 1 line 4 refused exists ip t p element 1\n# clerk 1 fail generation 2\n# clerk 2 abort generation 2\n",
              "# clerk 1 fail generation 2\n# clerk 2 abort generation 2\n")],
    "beginning": [("# commit generation 1 purged 0\n", "# commit generation 1 purged 1\n")],
    "listing": [("22, 80", "80, 22"), ("22, 80", "22"), ("22, 80", "22, 80, 443")],
}


def self_test():
    script = Script(TRIED)
    right = order_of(script, False, RIGHT, 1) == (2, 1, 2)
    for reason, changes in WRONG.items():
        for old, new in changes:
            try:
                order_of(script, False, RIGHT.replace(old, new), 1)
                print(f"{new!r} is accepted")
                right = False
            except Illegal as why:
                if why.args[0] != reason:
                    print(f"{new!r} is refused for {why.args[0]}")
                    right = False
    try:
        order_of(script, False, RIGHT, 0)
        print("another status is accepted")
        right = False
    except Illegal as why:
        right = right and why.args[0] == "status"
    return right


def example(folder):
    """Whether what was written of an example is right, and what stands beside it."""
    with open(f"{folder}/words") as file:
        words = file.read().split()
    with open(f"{folder}/{words[1]}") as file:
        script = Script(file.read())
    with open(f"{folder}/transcript") as file:
        stored = file.read()
    text, status = re.fullmatch(r"(.*\n)status (\d+)\n", sys.stdin.read(), re.DOTALL).groups()
    for output in text, stored:
        try:
            order_of(script, "--keep-going" in words, output, int(status))
        except Illegal as why:
            print(f"{folder}: {': '.join(why.args)}")
            return False
    return True


def main():
    if sys.argv[1] == "self-test":
        return self_test()
    if sys.argv[1] == "example":
        return example(sys.argv[2])
    return run_all(sys.argv[2], sys.argv[3] if len(sys.argv) > 3 else "2026")


if __name__ == "__main__":
    sys.exit(0 if main() else 1)
