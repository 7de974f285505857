"""What nft(8) takes of a script and what the program takes of it, as docs/kernel.md says: one row a claim.

Run in a network namespace of its own, with the program's path as the one word. The claims are of nft 1.0.6; under another
version they are skipped.
"""

import subprocess
import sys
import tempfile

BASE = "add table ip t\nadd set ip t s { type ipv4_addr . inet_service ; flags interval ; }\n"

# a script behind BASE (alone where it begins with a flush), whether nft 1.0.6 takes it, and the program's reason where it
# refuses it
ROWS = [
    ("flush ruleset\nadd table ip t", True, None),
    ("add element ip t s { 10.0.0.1 . 80 }", True, None),
    ("add element ip t s { 10.0.0.1 . 80 }\ndelete element ip t s { 10.0.0.1 . 80 }", True, None),
    ("destroy element ip t s { 10.0.0.1 . 80 }", False, None),
    ("add set ip t p { flags interval ; type inet_service ; }", True, "statement"),
    ("add set ip t s { type ipv4_addr . inet_service ; flags interval ; }", True, "set"),
    ("element ip t s { 10.0.0.1 . 80 }", True, "statement"),
    ("table ip u", True, "statement"),
    ("add element ip t s { 10.0.0.1 . 0x50 }", True, "value"),
    ("add element ip t s { 10.0.0.1 . ssh }", True, "value"),
    ('add element ip t s { 10.0.0.1 . "ssh" }', True, "statement"),
    ("add element ip t s { 10.0.0.1 . 80 comment web }", True, "statement"),
    ("add set ip t p { type inet_service ; comment web ; }", True, "statement"),
    ("add set ip t p { type inet_service ; }\nadd element ip t p { 80,,443 }", True, "statement"),
    ("add element ip t s { 10.0.0.4 - 10.0.0.6 . 80 }", True, "statement"),
    ("add set ip t p { type inet_service ; flags interval ; auto-merge ; }", True, "left out"),
    ("add set ip t p { type inet_service ; flags constant ; }", True, "left out"),
    ("add set ip t p { type ifname ; }", True, "type"),
    ("add set ip t _p { type inet_service ; }", True, None),
    ("add table ip _u\nadd set ip _u p { type inet_service ; }", True, None),
    (f"add set ip t {'p' * 127} {{ type inet_service ; }}", True, None),
    (f"add set ip t {'p' * 128} {{ type inet_service ; }}", True, "set"),
    ("add set ip t p { type inet_proto ; }\nadd element ip t p { ip, hopopt, ospf, ax.25, xns-idp }", True, None),
    ("add set ip t p { type inet_proto ; }\nadd element ip t p { TCP }", True, "value"),
    ("add set ip t p { type inet_proto ; flags interval ; }\nadd element ip t p { 6-17 }", True, None),
    ("add chain ip t c", True, "left out"),
    ("add map ip t m { type inet_service : inet_service ; }", True, "left out"),
    ("add counter ip t c", True, "left out"),
    ("define port = 80", True, "left out"),
    ("add set ip t p { typeof tcp dport ; }", True, None),
    ("add set ip t p { typeof ip saddr . ct original ip daddr . meta mark . th sport ; }", True, None),
    ("add set ip t p { typeof mark . ct mark . ip6 nexthdr . ct reply protocol ; }", True, None),
    ("add table arp t\nadd set arp t p { typeof arp saddr ip . arp daddr ether ; }", True, None),
    ("add set ip t p { typeof iifname ; }", True, "type"),
    ("add set ip t p { typeof ip saddr . icmp type ; }", True, "type"),
    ("add set ip t p { typeof ct protocol ; }", True, "type"),
    ("add set ip t p { typeof ct original proto-dst ; }", True, "type"),
    ("add set ip t p { typeof ip saddr tcp dport ; }", False, "statement"),
    ("add set ip t p { type ipv4_addr ; typeof ip saddr ; }", True, "statement"),
    ("add set ip t p { type inet_service ; flags dynamic ; }", True, "left out"),
    ("add set ip t p { type inet_service ; }\nadd element ip t p { * }", True, "left out"),
    ("delete set ip t s", True, "left out"),
    ("delete table ip t", True, "left out"),
    ("create set ip t p { type inet_service ; }", True, "left out"),
    ("create table ip u", True, "left out"),
    ("create element ip t s { 10.0.0.1 . 80 }", True, None),
    ("add element ip t s { 10.0.0.1 . 80 }\nflush set ip t s", True, None),
    ("add set ip t p { type inet_service ; timeout 1w ; }", False, "time"),
    # what the program reads and nft doesn't
    ("add set ip t p { type inet_proto ; flags interval ; }\nadd element ip t p { tcp-udp }", False, None),
    ("add set ip t counter { type inet_service ; }", False, None),
    ("add set ip t p { type inet_service ; flags interval,disjoint ; }", False, None),
    ("add set ip t p { type inet_service ; flags timeout ; }\nadd element ip t p { 80 expires 30s }", False, None),
    ("add set ip t p { type inet_service ; timeout 10s ; }\nadd element ip t p { 80 expires 30s }", False, None),
    ("add set ip t p { type inet_service ; flags interval ; }\nadd element ip t p { 10-20, 5-30 }", False, None),
    # taken by both, for different lives: see lives_of_the_set
    ("add set ip t p { type inet_service ; timeout 1h ; }\nadd element ip t p { 80 timeout 0s, 81 expires 0s }", True, None),
    # the start key is what nft deletes by; here the intervals are
    ("add element ip t s { 10.1.0.0/24 . 80 }\ndelete element ip t s { 10.1.0.0/25 . 80 }", True, "refused missing"),
]


def by_nft(text):
    subprocess.run(["nft", "flush", "ruleset"], check=True)
    return subprocess.run(["nft", "-f", "-"], input=text, text=True, capture_output=True).returncode == 0


def here(program, text):
    """The reason for which the program refuses the text or a change of it, or none."""
    with tempfile.TemporaryDirectory() as folder:
        with open(f"{folder}/script", "w") as file:
            file.write(text)
        run = subprocess.run([program, "list", f"{folder}/script"], capture_output=True, text=True)
    if run.returncode == 3:
        return run.stdout.strip().split(": ")[-1]
    if run.returncode == 1:
        return " ".join(run.stdout.splitlines()[0].split()[3:5])
    return None if run.returncode == 0 else f"status {run.returncode}"


def sorted_and_whole():
    """Whether nft keeps the elements of a single field by their values, and takes nothing of a file with a fault."""
    base = "add table ip t\nadd set ip t p { type inet_service ; flags interval ; }\n"
    kept = by_nft(f"{base}add element ip t p {{ 30, 10, 20 }}\n")
    subprocess.run(["nft", "-f", "-"], input="add element ip t p { 40 }\nadd element ip t q { 40 }\n", text=True,
                   capture_output=True)
    printed = subprocess.run(["nft", "list", "set", "ip", "t", "p"], capture_output=True, text=True, check=True).stdout
    if not kept or "elements = { 10, 20, 30 }" not in printed:
        print(f"nft keeps the elements 30, 10, 20, and a fault behind 40, as {printed}")
        return False
    return True


def lives_of_the_set():
    """Whether nft gives an element with `timeout 0s`, and one with `expires 0s`, the life that its set gives."""
    set_of_an_hour = "add table ip t\nadd set ip t p { type inet_service ; timeout 1h ; }\n"
    kept = by_nft(f"{set_of_an_hour}add element ip t p {{ 80 timeout 0s, 81 expires 0s }}\n")
    printed = subprocess.run(["nft", "list", "set", "ip", "t", "p"], capture_output=True, text=True, check=True).stdout
    if not kept or printed.count("expires 59m") + printed.count("expires 1h") != 2:
        print(f"nft keeps elements with the lives 0s and 0s as {printed}")
        return False
    return True


def protocols(program):
    """Whether each protocol is read as the number that nft prints it of."""
    numbers = range(256)
    base = "add table ip t\nadd set ip t p { type inet_proto ; }\n"
    subprocess.run(["nft", "flush", "ruleset"], check=True)
    every = ", ".join(map(str, numbers))
    subprocess.run(["nft", "-f", "-"], input=f"{base}add element ip t p {{ {every} }}\n", text=True, check=True)
    printed = subprocess.run(["nft", "list", "set", "ip", "t", "p"], capture_output=True, text=True, check=True).stdout
    if "ospf" not in printed:
        print("nft_words.py: the names of protocols are skipped, since nft finds no /etc/protocols with them")
        return True
    with tempfile.TemporaryDirectory() as folder:
        with open(f"{folder}/script", "w") as file:
            file.write(printed)
        with open(f"{folder}/keys", "w") as file:
            file.writelines(f"ip t p {number}\n" for number in numbers)
        run = subprocess.run([program, "run", f"{folder}/script", f"{folder}/keys"], capture_output=True, text=True)
    found = [line for line in run.stdout.splitlines() if line.startswith("packet") and "element" in line]
    if len(found) != len(numbers):
        print(f"of the 256 protocols that nft prints, {len(found)} are read as the same: {run.stdout.splitlines()[:1]}")
    return len(found) == len(numbers)


def main():
    version = subprocess.run(["nft", "--version"], capture_output=True, text=True).stdout
    if "v1.0.6" not in version:
        print(f"nft_words.py: skipped, since the claims are of nft 1.0.6 and this is {version.strip()}")
        return 0
    bad = 0
    for text, taken, reason in ROWS:
        script = f"{text}\n" if text.startswith("flush ruleset") else f"{BASE}{text}\n"
        got = by_nft(script), here(sys.argv[1], script)
        if got != (taken, reason):
            bad += 1
            print(f"{text!r}: nft {'takes' if got[0] else 'refuses'} it, and here: {got[1] or 'read'}")
    bad += not sorted_and_whole()
    bad += not lives_of_the_set()
    bad += not protocols(sys.argv[1])
    print(f"{len(ROWS) + 3} claims on what nft takes and what is read here, {bad} of them wrong")
    return 1 if bad else 0


if __name__ == "__main__":
    sys.exit(main())
