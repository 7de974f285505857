"""Draws the figures of bench/peers: FIGURES.json PICTURE.svg. The figures are those that `bench/peers --svg` keeps."""
import json
import math
import sys
from html import escape

WIDTH, LEFT, TOP, ROW = 860, 20, 112, 27
# name in the figures: name in the picture, shape, colour on white, colour on black
STYLES = {
    "kernel scalar": ("kernel, scalar", "triangle", "#6b7280", "#a3a9b5"),
    "kernel avx2": ("kernel, AVX2", "square", "#0067a8", "#5ab4ee"),
    "DPDK ACL": ("DPDK ACL", "diamond", "#b45309", "#f0a33c"),
    "here": ("Cilovaney, the set alone", "circle", "#047857", "#34d399"),
    "libpipapo": ("Cilovaney, libpipapo", "ring", "#047857", "#34d399"),
    "libpipapo, 64 a call": ("64 keys a call", "cross", "#047857", "#34d399"),
}
OURS, AVX2 = "here", "kernel avx2"
HEAD = """<svg xmlns="http://www.w3.org/2000/svg" viewBox="0 0 {width} {height}" width="{width}" height="{height}" role="img"
 font-family="system-ui, -apple-system, 'Segoe UI', 'DejaVu Sans', sans-serif" font-size="12">
<title>{title}</title>
<desc>{description}</desc>
<style>
.page {{ fill: #ffffff }} text {{ fill: #1f2328 }} .soft {{ fill: #57606a }} .grid {{ stroke: #d8dee4 }}
.stripe {{ fill: #f4f6f8 }}
{light}
@media (prefers-color-scheme: dark) {{
.page {{ fill: #0d1117 }} text {{ fill: #e6edf3 }} .soft {{ fill: #9da7b3 }} .grid {{ stroke: #30363d }}
.stripe {{ fill: #161b22 }}
{dark}
}}
</style>
<rect class="page" width="{width}" height="{height}"/>"""


class Scale:
    """A scale of powers of ten from the least to the greatest value, with some room, between two places of the picture."""

    def __init__(self, values, start, end):
        self.low, self.high = math.log10(min(values) / 1.3), math.log10(max(values) * 1.3)
        self.start, self.end = start, end

    def at(self, value):
        return round(self.start + (math.log10(value) - self.low) / (self.high - self.low) * (self.end - self.start), 1)

    def ticks(self):
        decades = self.high - self.low
        steps = (1, 2, 5) if decades < 1.5 else (1, 3) if decades < 3.5 else (1,)
        for power in range(math.floor(self.low), math.ceil(self.high)):
            for step in steps:
                value = step * 10.0**power
                if self.low <= math.log10(value) <= self.high:
                    yield value


def text(x, y, words, extra=""):
    return f'<text x="{x}" y="{y}"{" " + extra if extra else ""}>{escape(words)}</text>'


def line(x1, y1, x2, y2, extra):
    return f'<line x1="{x1}" y1="{y1}" x2="{x2}" y2="{y2}" {extra}/>'


def series_class(who):
    return f"s{list(STYLES).index(who)}"


def mark(who, x, y):
    """The series' mark, with its middle at a place."""
    shape = STYLES[who][1]
    name = f'class="{series_class(who)}"'
    if shape == "triangle":
        return f'<path {name} d="M{x} {y - 5}l5 9h-10z"/>'
    if shape == "square":
        return f'<path {name} d="M{x - 4} {y - 4}h8v8h-8z"/>'
    if shape == "diamond":
        return f'<path {name} d="M{x} {y - 6}l6 6l-6 6l-6 -6z"/>'
    if shape == "cross":
        return f'<path {name} d="M{x - 4} {y - 4}l8 8m0 -8l-8 8"/>'
    return f'<circle {name} cx="{x}" cy="{y}" r="{6 if shape == "circle" else 4.5}"/>'


def colours(which):
    for who, style in STYLES.items():
        colour, name = style[2 + which], series_class(who)
        if style[1] in ("ring", "cross"):
            yield f".{name} {{ fill: none; stroke: {colour}; stroke-width: 2 }}"
        else:
            yield f".{name} {{ fill: {colour} }}"
        yield f".l{name} {{ fill: none; stroke: {colour}; stroke-width: 1.5 }}"


def short(value, units):
    """A value with the greatest unit that isn't above it."""
    size, unit = next((it for it in units if value >= it[0] * 0.9995), units[-1])
    return f"{value / size:.3g}{unit}"


RATES = ((1e6, " M"), (1e3, " k"), (1, ""))
TIMES = ((1e3, " s"), (1, " ms"), (1e-3, " µs"))


def figure(row, who, name):
    value = row["figures"].get(who, {}).get(name)
    return value if value else None


def drawn(found):
    """The programs that have figures, in the order of the styles."""
    return [who for who in STYLES if any(figure(row, who, "lookups_per_s") for row in found["rows"])]


def values(found, name):
    return [value for row in found["rows"] for who in drawn(found) if (value := figure(row, who, name))]


def legend(found, y):
    x = LEFT + 6
    for who in drawn(found):
        yield mark(who, x, y - 4)
        yield text(x + 12, y, STYLES[who][0])
        x += 30 + 7.3 * len(STYLES[who][0])


def left_out(found):
    """What has no figure, in sentences."""
    missing = {}
    for row in found["rows"]:
        without = ", ".join(STYLES[who][0].replace(", ", " ") for who in drawn(found) if not figure(row, who, "lookups_per_s"))
        if without:
            missing.setdefault((without, row.get("omitted", "")), []).append(row["name"])
    for (without, reason), names in missing.items():
        yield f"Not measured in {', '.join(names)}: {without}.{' ' + reason if reason else ''}"


def notes(found):
    """What the picture says of the run."""
    yield f"{found['date']}, {found['processor']}, {found['processors']} processors, of which one is used."
    yield ", ".join(f"{name} {version}" for name, version in found["packages"].items()) + "."
    yield f"Each figure is the best of {found['rounds']} rounds, in turns. Half of the keys match. All scales are logarithmic."
    if found["kind"] == "sizes":
        yield "The workload is network_port: networks of many sizes, and ports, in no order."
    else:
        yield "÷ AVX2: lookups a second of Cilovaney's set, divided by those of the kernel's AVX2 code."
    if "DPDK ACL" in drawn(found):
        yield "DPDK ACL adds no element to a table, so its commit is a whole build."
    yield from left_out(found)


def wrapped(words, most):
    line = ""
    for word in words.split():
        if line and len(line) + len(word) >= most:
            yield line
            line = word
        else:
            line = f"{line} {word}".strip()
    yield line


def by_workload(found):
    """A line for each workload, with a mark for each program: lookups at the left, commits at the right."""
    rows = found["rows"]
    bottom = TOP + ROW * len(rows)
    rates = Scale(values(found, "lookups_per_s"), 200, 490)
    times = Scale(values(found, "commit_ms"), 580, WIDTH - LEFT - 6)
    yield text(200, TOP - 26, "Lookups a second", 'font-weight="600"')
    yield text(490, TOP - 26, "better →", 'class="soft" text-anchor="end"')
    yield text(580, TOP - 26, "A commit of one element", 'font-weight="600"')
    yield text(WIDTH - LEFT, TOP - 26, "← better", 'class="soft" text-anchor="end"')
    yield text(534, TOP - 26, "÷ AVX2", 'text-anchor="middle" font-weight="600"')
    for n, row in enumerate(rows):
        if n % 2 == 0:
            yield f'<rect class="stripe" x="{LEFT}" y="{TOP + ROW * n}" width="{WIDTH - 2 * LEFT}" height="{ROW}"/>'
    for scale, units in ((rates, RATES), (times, TIMES)):
        for value in scale.ticks():
            yield line(scale.at(value), TOP, scale.at(value), bottom, 'class="grid"')
            yield text(scale.at(value), TOP - 8, short(value, units), 'class="soft" text-anchor="middle" font-size="11"')
    for n, row in enumerate(rows):
        y = TOP + ROW * n + ROW / 2
        yield text(LEFT + 6, y + 4, row["name"])
        yield text(192, y + 4, f"{row['elements']:,}", 'class="soft" text-anchor="end" font-size="11"')
        ours, avx2 = figure(row, OURS, "lookups_per_s"), figure(row, AVX2, "lookups_per_s")
        if ours and avx2:
            yield text(534, y + 4, f"{ours / avx2:.2g}×" if ours < 10 * avx2 else f"{ours / avx2:.0f}×", 'text-anchor="middle"')
        for scale, name in ((rates, "lookups_per_s"), (times, "commit_ms")):
            yield from (mark(who, scale.at(value), y) for who in drawn(found) if (value := figure(row, who, name)))


def by_size(found):
    """A line for each program over the number of elements: lookups at the left, commits at the right."""
    rows = found["rows"]
    bottom = TOP + 330
    for start, end, name, units, title, better in (
        (70, 410, "lookups_per_s", RATES, "Lookups a second", "better ↑"),
        (500, WIDTH - LEFT - 20, "commit_ms", TIMES, "A commit of one element", "better ↓"),
    ):
        across = Scale([row["elements"] for row in rows], start, end)
        up = Scale(values(found, name), bottom, TOP)
        yield text(start, TOP - 14, title, 'font-weight="600"')
        yield text(end, TOP - 14, better, 'class="soft" text-anchor="end"')
        for value in up.ticks():
            yield line(start, up.at(value), end, up.at(value), 'class="grid"')
            yield text(start - 6, up.at(value) + 4, short(value, units), 'class="soft" text-anchor="end" font-size="11"')
        for row in rows:
            x = across.at(row["elements"])
            yield line(x, TOP, x, bottom, 'class="grid"')
            yield text(x, bottom + 16, f"{row['elements']:,}", 'class="soft" text-anchor="middle" font-size="11"')
        for who in drawn(found):
            places = [(across.at(row["elements"]), up.at(value)) for row in rows if (value := figure(row, who, name))]
            if places:
                points = " ".join(f"{x},{y}" for x, y in places)
                yield f'<polyline class="l{series_class(who)}" points="{points}"/>'
            yield from (mark(who, x, y) for x, y in places)
        yield text((start + end) / 2, bottom + 34, "elements", 'class="soft" text-anchor="middle"')


def picture(found):
    """The text of the picture."""
    is_sizes = found["kind"] == "sizes"
    title = "Lookups and commits beside the kernel and DPDK ACL"
    if is_sizes:
        least, most = min(row["elements"] for row in found["rows"]), max(row["elements"] for row in found["rows"])
        title = f"Lookups and commits in sets of {least:,} to {most:,} networks and ports"
    ends = list(wrapped(" ".join(notes(found)), 140))
    body = TOP + (330 + 40 if is_sizes else ROW * len(found["rows"]))
    height = body + 22 + 17 * len(ends)
    yield HEAD.format(width=WIDTH, height=height, title=escape(title), description=escape(" ".join(notes(found))),
                      light="\n".join(colours(0)), dark="\n".join(colours(1)))
    yield text(LEFT + 6, 30, title, 'font-size="17" font-weight="600"')
    yield from legend(found, 58)
    yield from (by_size if is_sizes else by_workload)(found)
    for n, words in enumerate(ends):
        yield text(LEFT + 6, body + 26 + 17 * n, words, 'class="soft" font-size="11"')
    yield "</svg>"


def draw(found, file):
    with open(file, "w", encoding="utf-8") as out:
        out.write("\n".join(picture(found)) + "\n")


if __name__ == "__main__":
    if len(sys.argv) != 3:
        sys.exit(__doc__)
    with open(sys.argv[1], encoding="utf-8") as kept:
        draw(json.load(kept), sys.argv[2])
