"""A hundred narrow elements, and then a hundred that enclose them: the earlier ones answer, says the kernel's theory of
operation.

Run in a network namespace of its own, with the program's path as the one word. The kernel is asked by nft(8), with one
transaction an element, as the program is.
"""

import subprocess
import sys
import tempfile

from nft_sets import found, nft, parts_text, text

KINDS = ["ipv4_addr", "inet_service"]
DECLARATION = "add set ip t s { type ipv4_addr . inet_service ; flags interval ; }"
COUNT = 100


def network(place):
    return 0x0A000000 + 256 * place


def narrow(place):
    return (network(place) + 10, network(place) + 20), (100, 110)


def wide(place):
    return (network(place) + 5, network(place) + 30), (90, 120)


def key(place):
    return [network(place) + 15, 105]


def told_by_kernel(changes):
    """How many keys find the narrow element, and how many the wide one."""
    for change in ["add table ip t", DECLARATION, *changes]:
        done = nft(change)
        if done.returncode != 0:
            sys.exit(f"later_element.py: the kernel refused {change}: {done.stderr}")
    answers = [found(KINDS, key(place)) for place in range(COUNT)]
    return (sum(answer == narrow(place) for place, answer in enumerate(answers)),
            sum(answer == wide(place) for place, answer in enumerate(answers)))


def told_here(program, changes):
    """The same of the program."""
    with tempfile.TemporaryDirectory() as folder:
        lines = [DECLARATION] + [line for change in changes for line in (change, "commit")]
        keys = [f"ip t s {' . '.join(text(kind, value) for kind, value in zip(KINDS, key(place)))}" for place in range(COUNT)]
        for name, content in (("script", lines), ("keys", keys)):
            with open(f"{folder}/{name}", "w") as file:
                file.write("\n".join(content) + "\n")
        run = subprocess.run([program, "run", "script", "keys"], cwd=folder, capture_output=True, text=True)
    ids = [line.split()[-1] for line in run.stdout.splitlines() if line.startswith("packet ")]
    return (sum(one == str(place) for place, one in enumerate(ids)),
            sum(one == str(COUNT + place) for place, one in enumerate(ids)))


if __name__ == "__main__":
    changes = [f"add element ip t s {{ {parts_text(KINDS, parts(place))} }}" for parts in (narrow, wide) for place in range(COUNT)]
    kernel, here = told_by_kernel(changes), told_here(sys.argv[1], changes)
    print(f"{COUNT} keys in two elements each: the kernel answers the earlier {kernel[0]} times and the later {kernel[1]} times,",
          f"the program the earlier {here[0]} times and the later {here[1]} times")
    sys.exit(0 if here == (COUNT, 0) and sum(kernel) == COUNT else 1)
