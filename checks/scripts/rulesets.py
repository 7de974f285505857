"""Loads rulesets into a kernel of their own and lists them, pipes the listings through `pipapo sets`, and loads the outputs.

The second kernel must have the sets of the first, without counters and the flags constant and dynamic. Sets with `auto-merge`
must be left out. The notes must be those that this model makes of the listing's lines.

Rulesets with an item in the braces of another one must be refused by both, at the same line. A ruleset with all forms of rules on
sets must be read by both.

usage: rulesets.py PROGRAM RULESET ..
"""
import json
import re
import subprocess
import sys

PROGRAM, RULESETS = sys.argv[1], sys.argv[2:]
LEFT_OUT = {"auto-merge": "'auto-merge' isn't read here"}
DROPPED = ["constant", "dynamic", "counter", "last"]
SET = "set s {\ntype ipv4_addr\n}\n"
# rulesets with an item in the braces of another one, and the line of that item
HELD = [
    ("table ip t {\nchain c {\naccept\n" + SET + "}\n}\n", 4),
    ("table ip t {\nct helper h {\ntype \"ftp\" protocol tcp\n" + SET + "}\n}\n", 4),
    ("table ip t {\nmap m {\ntype ipv4_addr : mark\n" + SET + "}\n}\n", 4),
    ("table ip t {\nset a {\ntype ipv4_addr\nauto-merge\n" + SET + "}\n}\n", 5),
    ("table ip t {\nchain c {\naccept\nmap m {\ntype ipv4_addr : mark\n}\n}\n}\n", 4),
    ("table ip t {\nchain c {\naccept\nchain d {\n}\n}\n}\n", 4),
    ("table ip t {\nchain c {\naccept\nflowtable f {\n}\n}\n}\n", 4),
    ("table ip t {\nchain c {\naccept\n}\nadd set ip t s { type ipv4_addr; }\n}\n", 5),
    ("add table ip t\nadd chain ip t c {\nadd set ip t s { type ipv4_addr; }\n}\n", 3),
]
ON_SETS = """\
table ip t {
set s { type ipv4_addr; timeout 1h; }
chain c {
set update ip saddr @s
set add ip saddr @s
add @s { ip saddr }; update @s { ip saddr timeout 5s }
delete @s { ip saddr }
meta mark set 5
ct mark set ct mark
meta mark set ip saddr map { 1.2.3.4 : 1 }
}
}
"""
failed = False


def complain(text):
    global failed
    failed = True
    print("rulesets:", text)


def nft(words, source):
    """What nft prints after it has loaded a ruleset into a network namespace of its own."""
    line = 'nft -f - && nft ' + words
    run = subprocess.run(["unshare", "-rn", "sh", "-c", line], input=source, capture_output=True, text=True)
    if run.returncode != 0:
        complain(f"nft {words}: {run.stderr}")
    return run.stdout


def check(source):
    """What nft says of a ruleset, without loading it."""
    return subprocess.run(["unshare", "-rn", "nft", "-c", "-f", "-"], input=source, capture_output=True, text=True)


def sets_of(listing):
    """The sets of a listing in JSON by their names, without what no verdict depends on."""
    found = {}
    for item in json.loads(listing)["nftables"]:
        if "set" not in item:
            continue
        one = dict(item["set"])
        for key in ("handle", "stmt"):
            one.pop(key, None)
        one["flags"] = sorted(set(one.get("flags", [])) - {"constant", "dynamic"})
        one["elem"] = sorted(json.dumps(plain(e), sort_keys=True) for e in one.get("elem", []))
        found[one["family"], one["table"], one["name"]] = one
    return found


def plain(element):
    """An element without its counter."""
    if not (isinstance(element, dict) and "elem" in element):
        return element
    inner = {key: value for key, value in element["elem"].items() if key not in ("counter", "last")}
    # the rest of a life gets shorter while the kernel runs
    inner.pop("expires", None)
    return inner["val"] if list(inner) == ["val"] else inner


def model(listing):
    """The notes on a listing, and the names of the sets that are left out."""
    notes, lost, lines = [], [], listing.split("\n")
    at = 0
    while at < len(lines):
        item = re.match(r'\t(\S+) ("[^"]*"|\S+)', lines[at])
        end = at
        if item and re.search(r"\{( # handle \d+)?$", lines[at]):
            while lines[end] != "\t}":
                end += 1
        if item and item[1] == "set":
            body = lines[at + 1:end]
            words = [re.match(r"\t\t(\S*)", line)[1] for line in body if line.startswith("\t\t")]
            why = next((LEFT_OUT[w] for w in words if w in LEFT_OUT), None)
            if why:
                lost.append(item[2])
                notes.append(f"r.nft:{at + 1}:2: 'set {item[2]}' is left out: {why}")
            else:
                for word in DROPPED:
                    places = ((n, m) for n, line in enumerate(body) for m in [re.search(rf"\b{word}\b", line)] if m)
                    first = next(places, None)
                    if first:
                        notes.append(f"r.nft:{at + 2 + first[0]}:{first[1].start() + 1}: '{word}' is dropped: no verdict depends on it")
        elif item:
            notes.append(f"r.nft:{at + 1}:2: '{item[1]} {item[2]}' is skipped: it isn't a set")
        at = end + 1
    return notes, lost


for path in RULESETS:
    source = open(path).read()
    wanted = sets_of(nft("-j list ruleset", source))
    for options in ("", "-n", "-a", "-s", "-y", "-p"):
        listing = nft(options + " list ruleset", source)
        with open("r.nft", "w") as out:
            out.write(listing)
        run = subprocess.run([PROGRAM, "sets", "r.nft"], capture_output=True, text=True)
        notes, lost = model(listing)
        if run.returncode != (1 if lost else 0):
            complain(f"{path} {options}: status {run.returncode}")
        if run.stderr.splitlines() != notes:
            complain(f"{path} {options}: the notes are\n{run.stderr}and not\n" + "\n".join(notes))
        got = sets_of(nft("-j list ruleset", run.stdout))
        kept = {key: one for key, one in wanted.items() if key[2] not in lost}
        if got != kept:
            complain(f"{path} {options}: the kernel has\n{got}\nand not\n{kept}")
        again = subprocess.run([PROGRAM, "list", "-"], input=run.stdout, capture_output=True, text=True)
        if again.returncode != 0:
            complain(f"{path} {options}: list has status {again.returncode}: {again.stderr}")
for text, line in HELD:
    checked = check(text)
    first = re.search(r"^/dev/stdin:(\d+):", checked.stderr, re.M)
    if checked.returncode == 0 or not first or int(first[1]) != line:
        complain(f"nft doesn't refuse line {line} of\n{text}{checked.stderr}")
    run = subprocess.run([PROGRAM, "sets", "-"], input=text, capture_output=True, text=True)
    if (run.returncode, run.stdout) != (3, f"pipapo: ruleset line {line}: statement\n"):
        complain(f"sets has status {run.returncode} and prints {run.stdout}of\n{text}")
checked = check(ON_SETS)
if checked.returncode != 0:
    complain(f"nft refuses rules on sets: {checked.stderr}")
run = subprocess.run([PROGRAM, "sets", "-"], input=ON_SETS, capture_output=True, text=True)
if (run.returncode, run.stderr) != (0, "-:3:1: 'chain c' is skipped: it isn't a set\n"):
    complain(f"sets has status {run.returncode} on rules on sets: {run.stderr}")
print(f"rulesets: {len(RULESETS)} rulesets, with six sets of options each, and {len(HELD)} with an item in another one")
sys.exit(failed)
