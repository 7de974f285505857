"""Loads what `list --json` writes of random scripts into the running kernel, and compares the kernel's sets with it.

Run in a network namespace of its own, with the program's path as the one word. Each script is loaded twice: as JSON, and
as the listing's text. Both must give the same sets with the same elements and comments. No life may be longer from the JSON
than from the text. Left out are what nft refuses from any listing: intervals of one field that meet, more than five fields,
and ranges of protocols with names.
"""

import json
import random
import re
import subprocess
import sys
import tempfile

from nft_sets import nft, number, parts_text
from transcripts import BITS

SCRIPTS = 60
KINDS = ["ipv4_addr", "ipv6_addr", "ether_addr", "inet_proto", "inet_service", "mark"]
BASE = {"ipv4_addr": 0x0A000000, "ipv6_addr": 0x20010DB8 << 96, "ether_addr": 0x005E00530000, "inet_proto": 150,
        "inet_service": 1000, "mark": 0}
LIVES = ["timeout 1500ms", "timeout 700ms", "timeout 90s", "timeout 1h", "timeout 2h30m500ms", "timeout 0s"]
COMMENTS = ["web", "a b", "\u00e9t\u00e9", "back\\slash", "{}"]
# how many seconds the kernel may need between a load and its listing
SLACK = 4


def drawn(rng, kind, place, interval):
    """An interval of a kind. Those of different places don't meet."""
    room = 4 if kind == "inet_proto" else 512
    low = BASE[kind] + place % (20 if kind == "inet_proto" else 64) * room
    if not interval:
        return low, low
    width = rng.choice([0, 1, 3, room // 2 - 1, room - 1, rng.randrange(room)])
    return low, min(low + width, (1 << BITS[kind]) - 1)


def declared(rng, number_of_set):
    """The statements of a set: its declaration, and additions to it."""
    kinds = [rng.choice(KINDS) for _ in range(rng.choice([1, 1, 2, 3, 4]))]
    interval = rng.random() < 0.7
    timed = rng.random() < 0.5
    items = [f"type {' . '.join(kinds)}"]
    if rng.random() < 0.3:
        items.append("size 4096")
    flags = [flag for flag, has in (("interval", interval), ("timeout", timed), ("disjoint", rng.random() < 0.2)) if has]
    if flags:
        items.append(f"flags {','.join(flags)}")
    if timed and rng.random() < 0.6:
        items.append(f"timeout {rng.choice(['5m', '1h', '30s500ms', '700ms'])}")
    place = f"{rng.choice(['ip', 'inet', 'ip6'])} t{rng.randrange(2)} s{number_of_set}"
    lines = [f"add set {place} {{ {' ; '.join(items)} ; }}"]
    for at in rng.sample(range(20), rng.randrange(15)):
        element = parts_text(kinds, [drawn(rng, kind, at, interval) for kind in kinds])
        if timed and rng.random() < 0.6:
            element += " " + rng.choice(LIVES)
        if rng.random() < 0.3:
            element += f' comment "{rng.choice(COMMENTS)}"'
        lines.append(f"add element {place} {{ {element} }}")
    return lines


def drawn_script(rng):
    sets = [declared(rng, n) for n in range(rng.randrange(1, 5))]
    lines = [lines[0] for lines in sets] + [line for lines in sets for line in lines[1:]] + ["commit"]
    if rng.random() < 0.5:
        lines += [f"at {rng.choice([300, 1000, 1700, 40000])}", "commit"]
    return "\n".join(lines) + "\n"


def interval_of(kind, value):
    """The interval of a field in nft's JSON."""
    if not isinstance(value, dict):
        return number(kind, str(value)), number(kind, str(value))
    if "prefix" in value:
        low = number(kind, str(value["prefix"]["addr"]))
        return low, low + (1 << BITS[kind] - value["prefix"]["len"]) - 1
    low, high = value["range"]
    return number(kind, str(low)), number(kind, str(high))


def sets_of(listing):
    """The sets of nft's JSON by their places: what is declared, and the comment and the life of each element."""
    sets = {}
    for item in json.loads(listing)["nftables"]:
        if "set" not in item:
            continue
        shown = item["set"]
        kinds = shown["type"] if isinstance(shown["type"], list) else [shown["type"]]
        elements = {}
        for element in shown.get("elem", []):
            beside = element["elem"] if isinstance(element, dict) and "elem" in element else {"val": element}
            value = beside["val"]
            fields = value["concat"] if isinstance(value, dict) and "concat" in value else [value]
            parts = tuple(interval_of(kind, field) for kind, field in zip(kinds, fields))
            elements[parts] = beside.get("comment"), beside.get("expires")
        options = kinds, sorted(shown.get("flags", [])), shown.get("size"), shown.get("timeout")
        sets[shown["family"], shown["table"], shown["name"]] = options, elements
    return sets


def loaded(words, text):
    """The kernel's sets after it loaded a text, or why nft refused it."""
    nft("flush", "ruleset")
    done = subprocess.run(["nft", *words, "-f", "-"], input=text, capture_output=True, text=True)
    if done.returncode != 0:
        return None, done.stderr
    return sets_of(nft("-j", "list", "ruleset").stdout), ""


def differences(ours, kernel, text_kernel):
    """What differs between the JSON, the kernel's sets after it, and those after the text."""
    if set(ours) != set(kernel):
        yield f"sets {sorted(ours)} and {sorted(kernel)}"
        return
    for place, (options, elements) in ours.items():
        if options != kernel[place][0]:
            yield f"{place}: {options} and {kernel[place][0]}"
        found = kernel[place][1]
        for parts in set(elements) ^ set(found):
            if parts in found or elements[parts][1] is None or elements[parts][1] > SLACK:
                yield f"{place}: {parts} is in one of them"
        given = options[3] or 0
        for parts in set(elements) & set(found):
            (comment, life), (kept, left) = elements[parts], found[parts]
            most = life if life is not None else given or None
            if comment != kept:
                yield f"{place}: {parts}: the comments {comment!r} and {kept!r}"
            if (most is None) != (left is None) or (most is not None and not most - SLACK <= left <= most):
                yield f"{place}: {parts}: the lives {most} and {left}"
        beside = text_kernel[place][1]
        for parts, (comment, left) in beside.items():
            if parts not in found and (left is None or left > SLACK):
                yield f"{place}: {parts} comes from the text alone"
            if parts in found and comment != found[parts][0]:
                yield f"{place}: {parts}: the comments {comment!r} from the text and {found[parts][0]!r}"
            if parts in found and left is not None and (found[parts][1] is None or found[parts][1] > left + SLACK):
                yield f"{place}: {parts}: the life {found[parts][1]} is longer than {left} from the text"


def main():
    program = sys.argv[1]
    bad = False
    with tempfile.TemporaryDirectory() as folder:
        for seed in range(SCRIPTS):
            script = drawn_script(random.Random(seed))
            with open(f"{folder}/script", "w") as file:
                file.write(script)
            text, line = (subprocess.run([program, "list", *words, f"{folder}/script", "--keep-going"], capture_output=True,
                                         text=True).stdout for words in ([], ["--json"]))
            # what nft takes of the text: no word of ours, and a timeout beside each life
            text = re.sub(r",?disjoint", "", re.sub(r"\t\tflags disjoint\n", "", text))
            text = re.sub(r" expires (\w+)", r" timeout \1 expires \1", text)
            text_kernel, why = loaded([], text)
            if text_kernel is None:
                print(f"nft_json.py: seed {seed}: nft refuses the text: {why}")
                bad = True
                continue
            kernel, why = loaded(["-j"], line)
            if kernel is None:
                print(f"nft_json.py: seed {seed}: nft refuses the JSON: {why}")
                bad = True
                continue
            for difference in differences(sets_of(line), kernel, text_kernel):
                print(f"nft_json.py: seed {seed}: {difference}")
                bad = True
    sys.exit(bad)


if __name__ == "__main__":
    main()
