"""Refuses each allocation of some runs in turn: words PROGRAM SHIM EXAMPLES.

Each is refused once, and once together with all later ones. The run then writes nothing, with status 7, or it could do
without that memory and writes what it writes else. Of a run on several threads the threads' numbers may differ. The control
threads of a desk may take turns in another order, so its lines are compared without numbers of generations and in any order.
"""
import os
import re
import shutil
import subprocess
import sys
import tempfile

SCRIPT = """\
add set ip t p { type inet_service ; flags interval,timeout ; }
add element ip t p { 80, 443, 1024-2047, 8080 timeout 30s }
commit
round
at 40000
delete element ip t p { 443 }
add element ip t p { 22 comment "ssh" }
round
"""
# Each kind of step, with refused changes of each kind. In strict mode the second section's transaction fails.
STEPS = """\
add set ip t p { type inet_service ; flags interval,timeout ; size 6 ; }
add set ip t a { type ipv4_addr . inet_service ; flags interval ; }
add set ip t d { type inet_service ; flags interval,disjoint ; }
add element ip t p { 80, 443, 8080 timeout 30s }
create element ip t a { 192.0.2.0/24 . 80-443 comment "web" }
add element ip t d { 10-20, 30 }
commit
flush set ip t a
abort
round
at 20000
add element ip t p { 8080 timeout 1h }
delete element ip t p { 443 }
destroy element ip t p { 443 }
flush set ip t d
create element ip t p { 80 }
delete element ip t p { 9 }
add element ip t a { 192.0.2.7 . 100-500 }
add element ip t p { 1, 2, 3, 4, 5, 6 }
commit
at 40000
add element ip t d { 25 }
round
"""
# Control threads that change a set each.
DESK = """\
add set ip t p { type inet_service ; flags interval ; }
add set ip t q { type inet_service ; flags interval ; }
add element ip t p { 80 }
round
add element ip t p { 443 }
commit
delete element ip t p { 80 }
round
add element ip t q { 22, 25 }
flush set ip t q
abort
create element ip t q { 53 }
"""
KEYS = "round\n" + "".join(f"ip t p {port}\n" for port in range(20, 90)) + "round\nip t p 1500\n"
LATER = "round\nround\nip t p 80\nip t p 443\nip t a 192.0.2.9 . 90\nat 40000\nip t d 25\nip t p 8080\n"

# a section with packets beside commits has more than one legal transcript, so the packets have sections of their own
RUNS = [
    ["run", "script", "keys"],
    ["run", "script", "keys", "--threads", "4"],
    ["list", "script"],
    ["dump", "script"],
    ["drill", "7", "20", "--threads", "2"],
    ["run", "steps", "later"],
    ["run", "steps", "later", "--keep-going"],
    ["list", "steps"],
    ["list", "steps", "--keep-going"],
    ["dump", "steps", "--keep-going"],
    ["judge", "judge/firewall.nft", "judge/firewall.rules", "judge/packets.keys"],
    ["capture", "capture/allow.nft", "capture/dest.plan", "capture/six.pcap"],
    ["capture", "interfaces/allow.nft", "interfaces/source.plan", "interfaces/two.pcapng"],
    ["get", "script", "ip t p 1500"],
    ["get", "--keep-going", "steps", "ip t p 9"],
    ["get", "script", "ip t p"],
    ["explain", "--keep-going", "steps", "later"],
    ["desk", "desk"],
    ["list", "missing"],
    ["no", "command"],
    ["help"],
]


def run(program, words, folder, **wish):
    done = subprocess.run([program, *words], cwd=folder, capture_output=True, env={**os.environ, **wish}, timeout=60)
    text = re.sub(rb"thread [0-9]+", b"thread N", done.stdout)
    if words[0] == "desk" and text:
        text = b"\n".join(sorted(re.sub(rb"generation [0-9]+", b"generation N", text).split(b"\n")))
    return done.returncode, text


def main():
    program, shim, examples = sys.argv[1:4]
    refused, bad = 0, 0
    with tempfile.TemporaryDirectory() as folder:
        for name, text in (("script", SCRIPT), ("steps", STEPS), ("keys", KEYS), ("later", LATER), ("desk", DESK)):
            with open(f"{folder}/{name}", "w") as file:
                file.write(text)
        for name in ("judge", "capture", "interfaces"):
            shutil.copytree(f"{examples}/{name}", f"{folder}/{name}")
        for words in RUNS:
            whole = run(program, words, folder)
            count = f"{folder}/count"
            counted = run(program, words, folder, LD_PRELOAD=shim, FAIL_COUNT=count)
            with open(count) as file:
                allocations = int(file.readline())
            if counted != whole or allocations == 0:
                bad += 1
                print(f"{' '.join(words)}: writes otherwise under the count, or {allocations} allocations")
            for number in range(1, allocations + 1):
                for on in "01":
                    got = run(program, words, folder, LD_PRELOAD=shim, FAIL_AT=str(number), FAIL_ON=on)
                    if got == (7, b""):
                        refused += 1
                    elif got != whole:
                        bad += 1
                        print(f"{' '.join(words)}: allocation {number}{' and all later ones' * (on == '1')} refused: status {got[0]}, {got[1][:200]!r}")
    print(f"{refused} refused allocations were told by status 7 alone")
    sys.exit(1 if bad or not refused else 0)


main()
