"""Counts the bytes that transactions ask for if a set stays as it is: words PROGRAM SHIM.

A copy of a set asks for more bytes if the set is larger, since it lists more pages. So fifty transactions that change nothing
in a set have to ask for as many bytes whether 20,000 elements are in this set or in another one, and transactions without a
word on the set for as many whether the 20,000 elements are there at all. All scripts have as many bytes and lines, so that all
else asks for the same. The last kind changes the set, and has to ask for more.
"""
import os
import subprocess
import sys
import tempfile

BIG, FEWER, MORE = 20_000, 150, 200

# what a transaction does to the set q, which has the ports 1 to 10
SAME = {
    "an addition that is there": "add element ip t q { 7 }\n",
    "a creation that is there": "create element ip t q { 7 }\n",
    "an addition that overlaps": "add element ip t q { 7-8 }\n",
    "a deletion that finds none": "delete element ip t q { 90 }\n",
    "a destruction that finds none": "destroy element ip t q { 90 }\n",
}
CHANGE = "add element ip t q { 90 }\ndelete element ip t q { 90 }\n"


def script(big, change, count):
    """Sets p, q and r, of which one may be big, and so many transactions that change p and do this."""
    for name in "pqr":
        yield f"add set ip t {name} {{ type inet_service ; flags interval ; }}\n"
    yield "add element ip t q { 1, 2, 3, 4, 5, 6, 7, 8, 9, 10 }\n"
    ports = ", ".join(str(10_000 + n) for n in range(BIG))
    line = f"add element ip t {big or 'q'} {{ {ports} }}\n"
    yield line if big else "#" + line[1:]
    yield "commit\n"
    for n in range(count):
        yield f"{'delete' if n % 2 else 'add'} element ip t p {{ 80 }}\n{change}commit\n"


def asked(program, shim, folder, big, change, count):
    """How many bytes the program asks for in all."""
    text = "".join(script(big, change, count))
    for name, lines in (("script", text), ("keys", "")):
        with open(f"{folder}/{name}", "w") as file:
            file.write(lines)
    words = [program, "run", "script", "keys", "--keep-going"]
    done = subprocess.run(words, cwd=folder, capture_output=True, env={**os.environ, "LD_PRELOAD": shim, "FAIL_COUNT": "count"}, timeout=60)
    if done.returncode not in (0, 1):
        sys.exit(f"status {done.returncode}: {done.stderr[:200]!r}")
    with open(f"{folder}/count") as file:
        return int(file.read().split()[1])


def more(program, shim, folder, big, change):
    """How many bytes fifty transactions more ask for."""
    fewer, all_of_them = (asked(program, shim, folder, big, change, count) for count in (FEWER, MORE))
    return all_of_them - fewer


def main():
    program, shim = sys.argv[1:3]
    bad = 0
    with tempfile.TemporaryDirectory() as folder:
        rows = [(name, "q", "r", change, True) for name, change in SAME.items()]
        rows.append(("no word on the set", "q", "", "", True))
        rows.append(("a change", "q", "r", CHANGE, False))
        for name, large, small, change, same in rows:
            beside = [more(program, shim, folder, big, change) for big in (large, small)]
            right = (beside[0] == beside[1]) == same
            bad += not right
            print(f"{name}: {beside[0]} bytes if the set is large, {beside[1]} if it isn't{'' if right else ', which is wrong'}")
    sys.exit(1 if bad else 0)


main()
