"""Prints the table of docs/performance.md from the figures that `bench/peers --svg` keeps: FIGURES.json."""
import json
import sys


def millions(who):
    """Millions of lookups a second."""
    return lambda figures: figures[who]["lookups_per_s"] / 1e6


def milliseconds(who):
    """Milliseconds of a commit."""
    return lambda figures: figures[who]["commit_ms"]


def beside_avx2(figures):
    return millions("here")(figures) / millions("kernel avx2")(figures)


COLUMNS = {
    "kernel": millions("kernel scalar"),
    "kernel, AVX2": millions("kernel avx2"),
    "DPDK ACL, one by one": millions("DPDK ACL"),
    "here": millions("here"),
    "here / AVX2": beside_avx2,
    "libpipapo": millions("libpipapo"),
    "libpipapo, 64 a call": millions("libpipapo, 64 a call"),
    "commit: kernel": milliseconds("kernel scalar"),
    "commit: here": milliseconds("here"),
    "commit: libpipapo": milliseconds("libpipapo"),
}


def cell(column, figures):
    """A figure with three digits, or nothing if it wasn't measured."""
    try:
        value = COLUMNS[column](figures)
    except KeyError:
        return ""
    return f"{value:,.0f}" if value >= 1000 else f"{value:.3g}"


def table(found):
    columns = [name for name in COLUMNS if any(cell(name, row["figures"]) for row in found["rows"])]
    yield f"| Workload | elements | {' | '.join(columns)} |"
    yield "|---|" + "---:|" * (len(columns) + 1)
    for row in found["rows"]:
        name = row["name"].split()[0]
        yield f"| `{name}` | {row['elements']:,} | {' | '.join(cell(name, row['figures']) for name in columns)} |"


if __name__ == "__main__":
    if len(sys.argv) != 2:
        sys.exit(__doc__)
    with open(sys.argv[1], encoding="utf-8") as kept:
        print("\n".join(table(json.load(kept))))
