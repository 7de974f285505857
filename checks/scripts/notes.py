"""Compares what a program tells on the standard error with what is promised: words PROGRAM FORMATS.

Each case has its words, what is told, the line on the standard output or None where that isn't looked at, and the status. Where a
line of a text is shown, it is the file's own and the caret stands under the column that is told. Each case runs with a standard
error that is closed and with one that is full, too.
"""
import os
import re
import subprocess
import sys
import tempfile

from mistakes import FROM_ELEMENT, FROM_NFT, GET_MISTAKES, HELP_PAGE, KEY_MISTAKES, MISTAKES, NO_PACKET, PLAN_MISTAKES, RULES_MISTAKES, SETS, SEVERAL, SEVERAL_KEYS, WORD_MISTAKES, get_note, key_note, note, rules_note, several_notes, word_note

LARGE = 67_108_865

PORTS = "add set ip t p { type inet_service ; flags interval ; }\n"
SOURCES = "add set ip t s { type ipv4_addr ; flags interval ; }\n"
PCAP = bytes.fromhex("d4c3b2a1020004000000000000000000ffff0000")
ETHERNET = PCAP + bytes.fromhex("01000000")

FILES = {
    "good.nft": PORTS + "add element ip t p { 80 }\n",
    "good.keys": "ip t p 80\n",
    "good.rules": "chain main { in ip t p accept }\npolicy drop\n",
    "good.plan": "ip t p dport\n",
    "x.nft": "table ip t {\n\tset s {\n\t\ttype ipv4_addr\n\t\tflags interval\n\t\tauto-merge\n\t}\n}\n",
    "overlap.nft": "table ip t {\n\tset s {\n\t\ttype ipv4_addr\n\t\tflags interval\n\t\telements = { 10.0.1.0/24,\n\t\t10.0.1.128/25 }\n\t}\n}\n",
    "character.nft": PORTS + "add element ip t p { $ports }\n",
    "end.nft": PORTS + "add element ip t p { 80,",
    "type.nft": "add set ip t p { type port ; }\n",
    "value.nft": PORTS + "add element ip t p { 80, 65536 }\n",
    "time.nft": "add set ip t p { type inet_service ; timeout 5x ; }\n",
    "moment.nft": "at 10\nat 9\n",
    "set.nft": PORTS + SOURCES + "add element ip t q { 80 }\n",
    "number.nft": "add set ip t p { type inet_service ; size 0 ; }\n",
    "statement.nft": PORTS + "drop everything\n",
    "bad.keys": "ip t p 80\nip t p 80 . 81\n",
    "bad.rules": "chain main { in ip t q accept }\npolicy drop\n",
    "bad.plan": "ip t p ip_saddr\n",
    "gzip.nft": bytes.fromhex("1f8b080000000000"),
    "pcap.nft": ETHERNET,
    "pcapng.nft": bytes.fromhex("0a0d0d0a1c000000"),
    "mark.nft": b"\xef\xbb\xbf" + PORTS.encode(),
    "utf16.nft": PORTS.encode("utf-16"),
    "json.nft": '{"nftables": [{"metainfo": {"version": "1.0.6"}}]}\n',
    "large.nft": None,
    "escape\x1b.nft": "\x1b[2J\n",
    "long.nft": PORTS + "add element ip t p { " + ", ".join(str(port) for port in range(1, 200)) + ", here, " + ", ".join(str(port) for port in range(300, 400)) + " }\n",
    "empty.pcap": b"",
    "short.pcap": ETHERNET[:-1],
    "cut.pcap": ETHERNET + bytes(10),
    "version.pcap": bytes.fromhex("d4c3b2a1030004000000000000000000ffff000001000000"),
    "link.pcap": PCAP + bytes.fromhex("69000000"),
    "gzip.pcap": bytes.fromhex("1f8b080000000000"),
    "pcapng.pcap": bytes.fromhex("0a0d0d0a1c000000"),
    "exists.nft": PORTS + "add element ip t p { 80 }\ncreate element ip t p { 80 }\n",
    # two refused elements in one line, each with an element of one line in its way
    "one_line.nft": PORTS + "add element ip t p { 10-20, 30-40 }\nadd element ip t p { 5-12, 35-50 }\n",
    # the first 10-20 is taken back, and its id is given again
    "taken_back.nft": PORTS + "add element ip t p { 10-20 }\nabort\nadd element ip t p { 12-22 }\nadd element ip t p { 20-30 }\n",
    # the same first field in two elements of the line
    "fields.nft": "add set ip t a { type ipv4_addr . inet_service; flags interval; }\nadd element ip t a { 10.0.0.0/8 . 80 }\nadd element ip t a { 10.0.0.1 . 443, 10.0.0.1 . 80 }\n",
    "clerks.nft": PORTS + "round\n" * 17,
    "desk.nft": PORTS + "add element ip t p { 80 }\nround\ncreate element ip t p { 80 }\n",
    "missing.nft": PORTS + "delete element ip t p { 81 }\n",
    "many.nft": PORTS + "".join(f"delete element ip t p {{ {port} }}\n" for port in range(1, 26)),
    "twenty.nft": PORTS + "".join(f"delete element ip t p {{ {port} }}\n" for port in range(1, 21)),
    # tests that no packet can meet
    "unmet.nft": "add set inet filter blocked { type ipv4_addr ; }\nadd set inet filter web { type ipv4_addr . inet_service ; }\n",
    "unmet.keys": "inet filter web 10.0.0.1 . 80\n",
    "met.keys": "inet filter web 10.0.0.1 . 80\ninet filter blocked 10.0.0.1\n",
    "rules": "chain main { in inet filter blocked drop ; in inet filter web accept }\npolicy drop\n",
    "twelve.rules": "chain main {\n" + "out inet filter blocked accept\n" * 12 + "}\npolicy drop\n",
    # a set that is left out of a ruleset, and texts that name it
    "left.nft": "table ip t {\n\tset m {\n\t\ttype ipv4_addr\n\t\tflags interval\n\t\tauto-merge\n\t}\n\tset s { type ipv4_addr; }\n}\n",
    "left.keys": "ip t m 192.0.2.1\n",
    "left.rules": "chain c { in ip t m accept }\npolicy drop\n",
    "left.plan": "ip t m ip_saddr\n",
    "one_more.nft": PORTS + "".join(f"delete element ip t p {{ {port} }}\n" for port in range(1, 22)),
}

# each mistake in a script of its own
FILES |= {f"mistake{number}.nft": mistake[0] for number, mistake in enumerate(MISTAKES)}
FILES |= {f"several{number}.nft": script for number, (script, _) in enumerate(SEVERAL)}
FILES |= {f"mistake{number}.rules": mistake[0] for number, mistake in enumerate(RULES_MISTAKES)}
FILES |= {f"mistake{number}.plan": mistake[0] for number, mistake in enumerate(PLAN_MISTAKES)}
FILES |= {f"several{number}.keys": keys for number, (keys, _) in enumerate(SEVERAL_KEYS)}
FILES |= {"sets.nft": SETS, **{f"mistake{number}.keys": mistake[0] + "\n" for number, mistake in enumerate(KEY_MISTAKES)}}

USAGE = re.compile("pipapo: usage: ")


def cases(shown):
    """The cases; `shown` are the examples of the formats, which tell of the files x.nft, overlap.nft and rules."""
    left_out, overlap, failed, unmet = shown
    run = ["run", "good.nft"]
    capture = ["capture", "good.nft", "good.plan"]
    yield ["list", "x.nft"], left_out, "pipapo: script line 5: left out", 3
    yield ["list", "overlap.nft"], overlap + failed, None, 1
    yield ["dump", "overlap.nft"], overlap + failed, None, 1
    yield ["list", "overlap.nft", "--keep-going"], overlap, None, 1
    yield ["run", "overlap.nft", "empty.pcap"], overlap, None, 1
    judge = ["judge", "unmet.nft"]
    yield [*judge, "rules", "unmet.keys"], unmet, None, 0
    yield [*judge, "rules", "met.keys"], "", None, 0
    yield [*judge, "rules", "empty.pcap"], "", None, 0
    out = "'out' is never met: no packet has a key for inet filter blocked (ipv4_addr); the keys here are of ipv4_addr . inet_service\nout inet filter blocked accept\n^^^\n"
    yield [*judge, "twelve.rules", "unmet.keys"], "".join(f"twelve.rules:{line}:1: {out}" for line in range(2, 12)) + "twelve.rules: 2 more tests are never met\n", None, 0
    why_left = "'m' is left out: 'auto-merge' isn't read here"
    for words, place, line, output, status in [
        (["get", "--sets", "left.nft", "ip", "t", "m", "192.0.2.1"], "key:1:6", "ip t m 192.0.2.1 \n     ^", "pipapo: key line 1: set", 13),
        (["run", "left.nft", "left.keys", "--sets"], "left.keys:1:6", "ip t m 192.0.2.1\n     ^", "pipapo: keys line 1: set", 4),
        (["judge", "left.nft", "left.rules", "good.keys", "--sets"], "left.rules:1:19", "chain c { in ip t m accept }\n                  ^", "pipapo: rules line 1: set", 9),
        (["capture", "left.nft", "left.plan", "link.pcap", "--sets"], "left.plan:1:6", "ip t m ip_saddr\n     ^", "pipapo: plan line 1: set", 11),
    ]:
        # the lines on the ruleset come once all files are read
        skipped = "left.nft:2:2: 'set m' is left out: 'auto-merge' isn't read here\n" if words[0] == "get" else ""
        yield words, f"{skipped}{place}: {why_left}\n{line}\nhelp: name another set, or change the ruleset at left.nft:5:3\n", output, status
    for name, line, column, said, why in [
        ("character.nft", 2, 22, "'$' is an unexpected character", "character"),
        ("end.nft", 2, 25, "the end of the text leaves the '{' of line 2 open", "end"),
        ("type.nft", 1, 23, "'port' isn't a supported type", "type"),
        ("value.nft", 2, 26, "'65536' doesn't fit field 1 (inet_service): 65536 is greater than 65535, the last port", "value"),
        ("time.nft", 1, 46, "'5x' isn't a time", "time"),
        ("moment.nft", 2, 4, "'9' is before the last moment, 10", "moment"),
        ("set.nft", 3, 18, "'q' isn't a set that is declared before this place", "set"),
        ("number.nft", 1, 43, "'0' isn't a size", "number"),
        ("statement.nft", 2, 1, "'drop' can't begin a statement", "statement"),
    ]:
        yield ["list", name], placed(name, line, column, said), f"pipapo: script line {line}: {why}", 3
    yield [*run, "bad.keys"], placed("bad.keys", 2, 11, "'.' begins one more field, and the set has 1 field"), "pipapo: keys line 2: statement", 4
    yield ["judge", "good.nft", "bad.rules", "good.keys"], placed("bad.rules", 1, 22, "'q' isn't a set of the script"), "pipapo: rules line 1: set", 9
    yield ["capture", "good.nft", "bad.plan", "empty.pcap"], placed("bad.plan", 1, 8, "'ip_saddr' doesn't fit the type of this field"), "pipapo: plan line 1: type", 11
    for number, mistake in enumerate(MISTAKES):
        name = f"mistake{number}.nft"
        yield ["list", name], note(name, mistake), re.compile(rf"pipapo: script line {mistake[1]}: .*\n"), 3
    for number, (script, mistakes) in enumerate(SEVERAL):
        name = f"several{number}.nft"
        yield ["list", name], several_notes(name, script, mistakes), re.compile(rf"pipapo: script line {mistakes[0][0]}: .*\n"), 3
    for number, mistake in enumerate(KEY_MISTAKES):
        name = f"mistake{number}.keys"
        yield ["run", "sets.nft", name], key_note(name, mistake), re.compile(r"pipapo: keys line 1: .*\n"), 4
    for number, (keys, mistakes) in enumerate(SEVERAL_KEYS):
        name = f"several{number}.keys"
        yield ["run", "sets.nft", name], several_notes(name, keys, mistakes), re.compile(rf"pipapo: keys line {mistakes[0][0]}: .*\n"), 4
    for number, mistake in enumerate(RULES_MISTAKES):
        name = f"mistake{number}.rules"
        yield ["judge", "sets.nft", name, "good.keys"], rules_note(name, mistake), re.compile(rf"pipapo: rules line {mistake[1]}: .*\n"), 9
    for number, mistake in enumerate(PLAN_MISTAKES):
        name = f"mistake{number}.plan"
        yield ["capture", "sets.nft", name, "link.pcap"], rules_note(name, mistake), re.compile(rf"pipapo: plan line {mistake[1]}: .*\n"), 11
    for mistake in GET_MISTAKES:
        yield ["get", "sets.nft", *mistake[0].split()], get_note(mistake), re.compile(r"pipapo: key line 1: .*\n"), 13
    for words in ["at 5", "round", "#"]:
        yield ["get", "sets.nft", *words.split()], NO_PACKET, "pipapo: key line 1: statement", 13
    # other files in a text's place
    for name, said in [
        ("gzip.nft", "this is a file that gzip has packed: unpack it first"),
        ("pcap.nft", "this is a capture of packets: the script is named first, then the plan, and then the capture"),
        ("pcapng.nft", "this is a capture of packets: the script is named first, then the plan, and then the capture"),
        ("mark.nft", "the text begins with a byte order mark of UTF-8: leave its three bytes out"),
        ("json.nft", "this is a listing in JSON, as nft -j prints it: list the sets without -j"),
        ("utf16.nft", "this is a text in UTF-16: write it in ASCII"),
    ]:
        yield ["list", name], re.compile(rf"{re.escape(name)}:[0-9]+:[0-9]+: {re.escape(said)}\n"), None, 3
    yield ["run", "good.keys", "good.nft"], "good.keys:1:1: this looks like a key file, and a script is expected here: 'run' and 'judge' take a key file after it\n", None, 3
    yield ["get", "good.keys", "ip", "t", "p", "80"], "good.keys:1:1: this looks like a key file, and a script is expected here: 'run' and 'judge' take a key file after it\n", None, 3
    yield ["compare", "good.nft", "good.keys"], "good.keys:1:1: this looks like a key file, and a script is expected here: 'run' and 'judge' take a key file after it\n", None, 3
    yield ["list", "good.rules"], "good.rules:1:1: this looks like a rules file, and a script is expected here: 'judge' takes a rules file after it\n", None, 3
    yield [*run, "link.pcap"], "link.pcap:1:1: this is a capture of packets, and no key file: 'pipapo capture SCRIPT PLAN PCAP' looks its packets up\n", None, 4
    yield ["list", "good.plan"], "good.plan:1:1: this looks like a plan, and a script is expected here: 'capture' takes a plan after it\n", None, 3
    yield [*run, "good.plan"], "good.plan:1:8: this looks like a plan, which only 'capture' takes\n", None, 4
    yield [*run, "good.nft"], re.compile("good.nft:1:[0-9]+: this looks like a script: the script is named first, and then the key file\n"), None, 4
    yield [*run, "good.rules"], re.compile("good.rules:1:[0-9]+: this looks like a rules file: .*\n"), None, 4
    yield ["judge", "good.nft", "good.keys", "good.rules"], re.compile("good.keys:1:1: this looks like a key file: .*\n"), None, 9
    yield ["capture", "good.nft", "good.keys", "link.pcap"], "good.keys:1:8: this looks like a key file: a plan has selectors such as dport in place of values\n", None, 11
    yield ["capture", "good.nft", "good.nft", "link.pcap"], re.compile("good.nft:1:[0-9]+: this looks like a script: .*\n"), None, 11
    # captures
    for name, byte, said, why in [
        ("empty.pcap", 0, "the file is empty", "magic"),
        ("short.pcap", 0, "the file has fewer bytes than the 24 of a capture's header", "cut"),
        ("cut.pcap", 24, "the record that begins here isn't there as a whole: the first 24 bytes are a capture", "cut"),
        ("version.pcap", 4, "its version isn't 2.4", "version"),
        ("link.pcap", 20, "its link type is 105: Ethernet (1), raw IP (12, 14, 101, 228, 229) and Linux cooked capture (113, 276) are supported", "link type"),
        ("gzip.pcap", 0, "this is a file that gzip has packed: unpack it first", "magic"),
        ("pcapng.pcap", 0, "the block that begins here isn't there as a whole: the first 0 bytes are a capture", "cut"),
        ("good.keys", 0, "this looks like a text: the script is named first, then the plan, and then the capture", "magic"),
    ]:
        yield [*capture, name], f"{name}: byte {byte}: {said}\n", f"pipapo: capture byte {byte}: {why}", 10
    # files that aren't read
    yield [*run, "nowhere"], "nowhere: No such file or directory\n", "pipapo: read fault: nowhere", 5
    for name in ["ruleset", "tables", "chains", "sets"]:
        yield ["list", name], f"{name}: No such file or directory\nhelp: {FROM_NFT}\n", f"pipapo: read fault: {name}", 5
    yield ["sets", "ruleset"], f"ruleset: No such file or directory\nhelp: {FROM_NFT}\n", "pipapo: read fault: ruleset", 5
    yield ["get", "element", "ip", "t", "p", "{", "80", "}"], f"element: No such file or directory\nhelp: {FROM_ELEMENT}\n", "pipapo: read fault: element", 5
    yield ["get", "ip", "t", "p", "80"], "ip: No such file or directory\nhelp: a script's file comes before the set, as: pipapo get SCRIPT [FAMILY] TABLE SET VALUE\n", "pipapo: read fault: ip", 5
    yield ["list", "help"], f"help: No such file or directory\nhelp: {HELP_PAGE}\n", "pipapo: read fault: help", 5
    yield [*run, "folder"], "folder: Is a directory\n", "pipapo: read fault: folder", 5
    yield [*run, "/proc/self/mem"], "/proc/self/mem: it can't be read\n", "pipapo: read fault: /proc/self/mem", 5
    if os.geteuid() != 0:
        yield [*run, "closed"], "closed: Permission denied\n", "pipapo: read fault: closed", 5
    yield ["list", "large.nft"], "large.nft: a file may have 67108864 bytes (64 MiB) at most\n", "pipapo: too large: large.nft", 8
    # what would move a terminal, and a long line
    yield ["list", "escape\x1b.nft"], re.compile(r"escape\\x1b.nft:1:1: '\\x1b' is an unexpected character\n\\x1b\[2J\n\^\^\^\^\nhelp: .*\n"), None, 3
    yield ["list", "long.nft"], re.compile(r"long.nft:2:[0-9]+: 'here' doesn't fit field 1 \(inet_service\): it isn't a port\n\.\..{100}here.{40}\.\.\n {102}\^{4}\n(help: .*\n)?"), None, 3
    # refused changes
    yield ["list", "exists.nft"], "exists.nft:3:25: 80 exists already (line 2)\n" + failed.replace("overlap.nft", "exists.nft"), None, 1
    yield ["run", "one_line.nft", "good.keys", "--keep-going"], "one_line.nft:3:22: 5-12 overlaps 10-20 (line 2)\none_line.nft:3:28: 35-50 overlaps 30-40 (line 2)\n", None, 1
    yield ["run", "taken_back.nft", "good.keys"], "taken_back.nft:5:22: 20-30 overlaps 12-22 (line 4)\n", None, 1
    yield ["run", "fields.nft", "/dev/null"], "fields.nft:3:38: 10.0.0.1 . 80 overlaps 10.0.0.0/8 . 80 (line 2)\n", None, 1
    yield ["run", "missing.nft", "good.keys"], "missing.nft:2:25: 81 isn't in the set\n", None, 1
    many = "".join(f"many.nft:{line}:25: {line - 1} isn't in the set\n" for line in range(2, 22))
    yield ["run", "many.nft", "good.keys", "--keep-going"], many + "many.nft: 5 more changes are refused\n", None, 1
    yield ["list", "twenty.nft", "--keep-going"], many.replace("many.nft", "twenty.nft"), None, 1
    yield ["list", "one_more.nft", "--keep-going"], many.replace("many.nft", "one_more.nft") + "one_more.nft: 1 more change is refused\n", None, 1
    yield ["get", "--keep-going", "twenty.nft", "ip", "t", "p", "80"], many.replace("many.nft", "twenty.nft"), None, 1
    yield ["get", "good.nft", "ip", "t", "p", "81"], "", None, 1
    # several control threads
    yield ["desk", "clerks.nft"], "clerks.nft: the script has 18 sections, and desk runs 17 at most: the first, and one for each of 16 control threads; join some, by leaving lines 'round' out\n", "pipapo: too many clerks: clerks.nft", 12
    yield ["desk", "desk.nft"], "desk.nft:4:25: 80 exists already (line 2)\n" + failed.replace("overlap.nft", "desk.nft"), None, 1
    # where nothing is told
    yield [*run, "good.keys"], "", None, 0
    yield ["drill", "7", "2000"], "", None, 0
    yield ["help"], "", None, 0
    # words that are no command
    for mistake in WORD_MISTAKES:
        yield mistake[0].split(), word_note(mistake), USAGE, 2
    yield ["run", "", "good.keys"], "pipapo: a word is empty\nhelp: write the name of a file, or '-' for the standard input\n", USAGE, 2


def placed(name, line, column, said):
    """A note on a bad token, whatever it says to do."""
    return re.compile(rf"{re.escape(name)}:{line}:{column}: {re.escape(said)}\n.*\n[ \t]*\^+\n(help: .*\n)?")


def is_same(wanted, text):
    return wanted.fullmatch(text) is not None if isinstance(wanted, re.Pattern) else wanted == text


def points(text, name):
    """Whether a line of a file that is shown is its own, up to two dots, and the caret is under the column that is told."""
    told = re.match(rf"{re.escape(name)}:([0-9]+):([0-9]+): .*\n(.*)\n([ \t]*)\^", text)
    if told is None or "\\x" in text or "\n.." in text:
        return True
    lines = FILES[name].split("\n")
    line, column = int(told[1]), int(told[2])
    shown, whole = told[3], lines[line - 1]
    is_own = shown == whole or (shown.endswith("..") and whole.startswith(shown[:-2]))
    return is_own and len(told[4]) == column - 1 and told[4] == re.sub(r"[^\t]", " ", whole[: column - 1])


def tells_full_output(program, folder):
    """Whether a full standard output is told in the system's words, and one that nobody reads isn't."""
    with open("/dev/full", "w") as full:
        failed = subprocess.run([program, "list", "good.nft"], cwd=folder, stdout=full, stderr=subprocess.PIPE, stdin=subprocess.DEVNULL, timeout=60)
    reader, writer = os.pipe()
    os.close(reader)
    unread = subprocess.run([program, "list", "good.nft"], cwd=folder, stdout=writer, stderr=subprocess.PIPE, stdin=subprocess.DEVNULL, timeout=60)
    os.close(writer)
    return (failed.returncode, failed.stderr, unread.stderr) == (6, b"pipapo: the standard output failed: No space left on device\n", b"")


def run(program, words, folder, stderr, closed=False):
    done = subprocess.run([program, *words], cwd=folder, stdout=subprocess.PIPE, stderr=stderr, stdin=subprocess.DEVNULL, timeout=60, preexec_fn=(lambda: os.close(2)) if closed else None)
    return done.returncode, done.stdout, done.stderr


def shown_in(formats):
    """The notes that the formats show, in their order."""
    with open(formats) as file:
        text = file.read().split("## The standard error\n")[1].split("\n## ")[0]
    left_out = re.search(r"(    x\.nft:5:3: .*\n(?:    .*\n){3})", text)[1]
    overlap, failed = re.search(r"    (x\.nft:6:3: .*\n)    (x\.nft: .*\n)", text).groups()
    unmet = re.search(r"(    rules:1:14: .*\n(?:    .*\n){2})", text)[1]
    return re.sub("^    ", "", left_out, flags=re.M), overlap.replace("x.nft", "overlap.nft"), failed.replace("x.nft", "overlap.nft"), re.sub("^    ", "", unmet, flags=re.M)


def main():
    program, formats = sys.argv[1:3]
    shown = shown_in(formats)
    bad = count = 0
    with tempfile.TemporaryDirectory() as folder, open("/dev/full", "w") as full:
        for name, text in FILES.items():
            with open(f"{folder}/{name}", "wb") as file:
                if text is None:
                    file.truncate(LARGE)
                else:
                    file.write(text if isinstance(text, bytes) else text.encode())
        os.mkdir(f"{folder}/folder")
        with open(f"{folder}/closed", "w"):
            os.chmod(f"{folder}/closed", 0)
        for words, told, line, status in cases(shown):
            count += 1
            got = run(program, words, folder, subprocess.PIPE)
            text = got[2].decode()
            output = got[1].decode()
            fits = line is None or (line.match(output) if isinstance(line, re.Pattern) else output == line + "\n")
            names = [name for name in words[1:] if isinstance(FILES.get(name), str)]
            if got[0] != status or not fits or not is_same(told, text) or not all(points(text, name) for name in names):
                bad += 1
                print(f"{' '.join(words)}: status {got[0]}, {output!r:.200}, told\n{text}")
            if run(program, words, folder, full)[:2] != got[:2]:
                bad += 1
                print(f"{' '.join(words)}: does something else where the standard error is full")
            if run(program, words, folder, None, closed=True)[:2] != got[:2]:
                bad += 1
                print(f"{' '.join(words)}: does something else where the standard error is closed")
        if not tells_full_output(program, folder):
            bad += 1
            print("a full output isn't told in the system's words, or one that nobody reads is told")
    print(f"{count} calls told what they are to tell, or nothing" if not bad else f"{bad} of {count} calls told something else")
    sys.exit(1 if bad else 0)


main()
