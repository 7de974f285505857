"""Runs all that bench/peers built on its workloads, in turns: FOLDER, and the words of bench/peers."""
import argparse
import json
import os
import subprocess
import sys

BENCH = os.path.dirname(os.path.dirname(os.path.abspath(__file__)))
sys.path.insert(0, BENCH)
from workloads import OF_PEERS, OF_SIZES

from machine import about_run
from picture import draw

ROUNDS, ROUNDS_OF_SIZES = 3, 2
HERE = "here"
SIZES = (10, 100, 1000, 10000, 100000, 1000000)
# In a larger set a round of these takes minutes: the kernel looks at all elements before each insertion, DPDK ACL builds longer
# than in proportion, and bench/speed builds the set again for each of its figures.
SLOW_BEYOND = 100000
SLOW = ("kernel scalar", "kernel avx2", "DPDK ACL", HERE)


def programs(folder):
    """Each program by its name, as the words of a bench and of verdicts."""
    found = {}
    kernel, acl, speed = f"{folder}/kernel_bench", f"{folder}/acl_bench", f"{BENCH}/speed"
    library = f"{folder}/library_bench"
    if os.path.exists(kernel):
        for engine in ("scalar", "avx2"):
            found[f"kernel {engine}"] = ([kernel, "bench", engine], [kernel, "verdict", engine])
    if os.path.exists(acl):
        found["DPDK ACL"] = ([acl, "bench"], [acl, "verdict"])
    found[HERE] = ([speed, "bench"], [speed, "verdict"])
    for way, name in (("held", "libpipapo"), ("many", "libpipapo, 64 a call")):
        found[name] = ([library, "bench", way], [library, "verdict", way])
    return found


def written(words, file):
    run = subprocess.run([*words, file], capture_output=True, text=True)
    if run.returncode != 0:
        print(f"bench/peers: {' '.join(words)}: {run.stderr.strip()[-200:]}", file=sys.stderr)
        return ""
    return run.stdout


def workload_file(folder, name, *size):
    file = f"{folder}/workloads/{'_'.join([name, *size])}"
    os.makedirs(os.path.dirname(file), exist_ok=True)
    with open(file, "w") as out:
        subprocess.run([sys.executable, f"{BENCH}/workloads.py", name, *size], stdout=out, check=True)
    return file


def verify(folder, names):
    """Whether all programs tell the same verdicts."""
    same = True
    for name in names:
        file = workload_file(folder, name)
        verdicts = {who: written(words, file).split() for who, (_, words) in programs(folder).items()}
        ours = verdicts.pop(HERE)
        for who, theirs in verdicts.items():
            differ = sum(one != other for one, other in zip(ours, theirs)) + abs(len(ours) - len(theirs))
            print(f"{name}: {len(ours)} keys, {who} differs in {differ}")
            same = same and differ == 0 and len(ours) > 0
    return same


def figures(line):
    return {name: float(value) for name, value in (word.split("=") for word in line.split() if "=" in word)}


def measure(who, file, rounds):
    """The best figures of each of these programs."""
    best = {name: {} for name in who}
    for _ in range(rounds):
        for name, (words, _) in who.items():
            for figure, value in figures(written(words, file)).items():
                better = min if figure.endswith("_ms") else max
                best[name][figure] = better(best[name].get(figure, value), value)
    return best


def row_of_workload(folder, name):
    best = measure(programs(folder), workload_file(folder, name), ROUNDS)
    return {"name": name, "elements": OF_PEERS[name][1], "figures": best}


def row_of_size(folder, size):
    who, row = programs(folder), {"name": f"{OF_SIZES} {size:,}", "elements": size}
    if size > SLOW_BEYOND:
        who = {name: words for name, words in who.items() if name not in SLOW}
        row["omitted"] = "A round of these takes minutes."
    return row | {"figures": measure(who, workload_file(folder, OF_SIZES, str(size)), ROUNDS_OF_SIZES)}


def millions(value):
    return "-" if value is None else f"{value / 1e6:.3g}"


def milliseconds(value):
    return "-" if value is None else f"{value:.3g}"


COLUMNS = ((millions, "lookups_per_s"), (millions, "inserts_per_s"), (milliseconds, "commit_ms"))


def table(folder, rows):
    """Prints the rows as they come, and returns them."""
    who = list(programs(folder))
    columns = [f"{one}: {what}" for what in ("lookups", "insertions", "commit ms") for one in who]
    print("Millions of lookups and of insertions a second, and milliseconds of a commit of one element.\n")
    print("| workload | elements |", " | ".join(columns), "|")
    print("|---|---|" + "---|" * len(columns))
    kept = []
    for row in rows:
        best = row["figures"]
        cells = [form(best.get(one, {}).get(name)) for form, name in COLUMNS for one in who]
        print(f"| {row['name']} | {row['elements']} |", " | ".join(cells), "|", flush=True)
        kept.append(row)
    return kept


def words_of(line):
    parser = argparse.ArgumentParser(prog="bench/peers", usage="bench/peers [verify] [--sizes] [--svg FILE] [WORKLOAD|ELEMENTS ..]")
    parser.add_argument("--sizes", action="store_true")
    parser.add_argument("--svg", metavar="FILE")
    parser.add_argument("names", nargs="*")
    words = parser.parse_intermixed_args(line)
    if words.svg and not os.path.isdir(os.path.dirname(os.path.abspath(words.svg))):
        parser.error(f"there is no folder for {words.svg}")
    words.is_check = words.names[:1] == ["verify"]
    words.names = words.names[words.is_check:]
    if words.is_check and (words.sizes or words.svg):
        parser.error("verify takes names of workloads alone")
    if words.sizes:
        if not all(name.isdecimal() and 10 <= int(name) <= SIZES[-1] for name in words.names):
            parser.error(f"--sizes takes numbers of elements, from 10 to {SIZES[-1]}")
        words.names = [int(name) for name in words.names] or SIZES
    elif not set(words.names) <= set(OF_PEERS):
        parser.error(f"the workloads are {' '.join(OF_PEERS)}")
    return words


def main():
    folder, words = sys.argv[1], words_of(sys.argv[2:])
    if words.is_check:
        sys.exit(0 if verify(folder, words.names or list(OF_PEERS)) else 1)
    if words.sizes:
        rows = (row_of_size(folder, size) for size in words.names)
    else:
        rows = (row_of_workload(folder, name) for name in words.names or OF_PEERS)
    rows = table(folder, rows)
    if words.svg:
        kind, rounds = ("sizes", ROUNDS_OF_SIZES) if words.sizes else ("workloads", ROUNDS)
        found = {"kind": kind, **about_run(), "rounds": rounds, "rows": rows}
        with open(f"{words.svg.removesuffix('.svg')}.json", "w", encoding="utf-8") as out:
            json.dump(found, out, indent=1, ensure_ascii=False)
            out.write("\n")
        draw(found, words.svg)


main()
