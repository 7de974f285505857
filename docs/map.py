#!/usr/bin/env python3
"""Makes the map of the crates in docs/architecture.md from crates.txt and from each crate's first page.

  docs/map.py            prints the table
  docs/map.py --write    puts it into docs/architecture.md, between the two marker lines
  docs/map.py --check    fails if docs/architecture.md has another table
"""
import re
import sys
from pathlib import Path

TOP = Path(__file__).resolve().parent.parent
PAGE = TOP / "docs" / "architecture.md"
BEGIN = "<!-- docs/map.py makes this table: begin -->"
END = "<!-- docs/map.py makes this table: end -->"


def read_crates():
    """The lines of crates.txt: a group's title as a text, a crate as its name and the names that it lists."""
    rows = []
    for line in (TOP / "crates.txt").read_text().splitlines():
        if line.startswith("# ") and not line.startswith("# ("):
            rows.append(line[2:])
        elif ":" in line and not line.startswith("#"):
            name, below = line.split(":", 1)
            rows.append((name.split()[0], below.split()))
    return rows[1:] if rows and isinstance(rows[0], str) and rows[0].startswith("NAME:") else rows


def first_sentence(name):
    """The first sentence of a crate's first page."""
    source = TOP / "crates" / name / "src"
    root = source / "lib.rt" if (source / "lib.rt").exists() else source / "main.rt"
    words = []
    for line in root.read_text().splitlines():
        if not line.startswith("//!") or line == "//!":
            break
        words.append(line[3:].strip())
    text = re.sub(r"\[(`[^`]*`)\]", r"\1", " ".join(words))
    sentence = re.match(r".*?[.:](?= [A-Z`]|$)", text)
    if not sentence:
        sys.exit(f"docs/map.py: {root} doesn't begin with a sentence")
    return sentence.group(0).rstrip(".:").replace("|", "\\|")


def reached(names, below):
    """The crates that these depend on, directly or not."""
    found = set()
    left = list(names)
    while left:
        for name in below.get(left.pop(), []):
            if name not in found:
                found.add(name)
                left.append(name)
    return found


def table():
    rows = read_crates()
    below = dict(row for row in rows if not isinstance(row, str))
    lines = ["| Crate | What it does | Depends on |", "|---|---|---|"]
    for row in rows:
        if isinstance(row, str):
            lines.append(f"| | **{row}** | |")
        else:
            name, used = row
            direct = [one for one in used if one not in reached(used, below)]
            lines.append(f"| `{name}` | {first_sentence(name)} | {', '.join(direct)} |")
    return "\n".join(lines) + "\n"


def parts():
    """The page before, within and after the markers."""
    before, begin, rest = PAGE.read_text().partition(BEGIN + "\n")
    within, end, after = rest.partition(END + "\n")
    if not begin or not end:
        sys.exit(f"docs/map.py: {PAGE} hasn't both markers")
    return before, within, after


def main(words):
    if words == ["--write"]:
        before, _, after = parts()
        PAGE.write_text(f"{before}{BEGIN}\n{table()}{END}\n{after}")
    elif words == ["--check"]:
        if parts()[1] != table():
            sys.exit("docs/map.py: docs/architecture.md has another map than crates.txt; docs/map.py --write mends it")
    elif not words:
        sys.stdout.write(table())
    else:
        sys.exit(__doc__)


if __name__ == "__main__":
    main(sys.argv[1:])
