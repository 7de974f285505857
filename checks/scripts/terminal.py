"""What the program tells on a terminal of how far it is: first that it reads, then sections and packets with numbers that rise, and
at the end nothing more; and that its output is the same as where there is no terminal, and nothing is told there.

terminal.py PROGRAM FOLDER PATTERN WORDS...: the pattern is of the texts behind the first, of which some are to be told; the folder
takes the output. Each of the first texts stops the program for longer than it waits between two texts, so that the next is due
however fast the machine is. A run that ends before it is stopped is tried again."""

import os
import re
import signal
import subprocess
import sys
import time

PAUSE = 0.15
PAUSES = 8
TRIES = 20


def tell_on_terminal(program, words, output):
    """The standard error on a terminal, its texts apart."""
    reading, writing = os.openpty()
    with open(output, "wb") as file:
        run = subprocess.Popen([program, *words], stdin=subprocess.DEVNULL, stdout=file, stderr=writing)
    os.close(writing)
    told = b""
    pauses = 0
    while True:
        try:
            piece = os.read(reading, 4096)
        except OSError:
            # the program has left the terminal
            break
        told += piece
        if pauses < PAUSES:
            pauses += 1
            run.send_signal(signal.SIGSTOP)
            time.sleep(PAUSE)
            run.send_signal(signal.SIGCONT)
    os.close(reading)
    if run.wait() != 0:
        sys.exit(f"notes: on a terminal {words[0]} ends with {run.returncode}")
    return told.decode().split("\r\x1b[K")


def main():
    program, folder, pattern, *words = sys.argv[1:]
    plain = subprocess.run([program, *words], stdin=subprocess.DEVNULL, capture_output=True)
    if plain.returncode != 0 or plain.stderr:
        sys.exit(f"notes: without a terminal {words[0]} ends with {plain.returncode} and tells {plain.stderr!r}")
    output = os.path.join(folder, "output")
    for _ in range(TRIES):
        texts = tell_on_terminal(program, words, output)
        with open(output, "rb") as file:
            if file.read() != plain.stdout:
                sys.exit(f"notes: on a terminal {words[0]} writes something else")
        far = [re.fullmatch(f"pipapo: section {pattern}", text) for text in texts[1:-1]]
        counts = [int(one[1]) for one in far if one and one[1]]
        if texts[0] != "pipapo: reading" or texts[-1] != "" or None in far or counts != sorted(counts):
            sys.exit(f"notes: on a terminal {words[0]} tells this: {texts!r}")
        if counts:
            print(f"{len(texts) - 1} texts told on a terminal how far {words[0]} is")
            return
    sys.exit(f"notes: on a terminal {words[0]} tells nothing but that it reads, in {TRIES} runs")


main()
