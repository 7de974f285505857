"""Compares what nft(8) says of each mistake of mistakes.py with the words that are given there. It runs in a network namespace of its own.

The words are those of nft 1.0.6. Under another version they are skipped.
"""

import re
import subprocess
import sys

from mistakes import MISTAKES


def nft_words(script):
    """How nft begins what it says of a script, or that it takes the script. Nothing if it crashes without a word."""
    done = subprocess.run(["nft", "-c", "-f", "-"], input=script, text=True, capture_output=True)
    error = re.search(r"Error: (.*)", done.stderr)
    return error[1] if error else "taken" if done.returncode == 0 else ""


def main():
    version = subprocess.run(["nft", "--version"], capture_output=True, text=True, check=True).stdout
    if "v1.0.6 " not in version:
        print(f"nft_mistakes.py: skipped, since the words are of nft 1.0.6 and this is {version.strip()}")
        return
    bad = 0
    for script, *_, words in MISTAKES:
        said = nft_words(script)
        if not said.startswith(words) or bool(said) != bool(words):
            bad += 1
            print(f"{script.splitlines()[-1]}: nft says {said!r} and not {words!r}")
    print(f"nft has its own words for {len(MISTAKES) - bad} of {len(MISTAKES)} mistakes")
    sys.exit(1 if bad else 0)


if __name__ == "__main__":
    main()
