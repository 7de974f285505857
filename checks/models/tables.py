"""The tables of a set of one rule an element, by the definition: fields cut into groups, rows, and what `dump` writes of them.

The elements are numbered. Each has a mark and a value of one kind, which its number gives.
"""

MOST_BYTES = 2_097_152


# ---- kinds

def dotted(n):
    return ".".join(str(n >> shift & 255) for shift in (24, 16, 8, 0))


def colons(n, bits, step):
    return ":".join(f"{n >> shift & (1 << step) - 1:x}" for shift in range(bits - step, -1, -step))


KINDS = [
    # kind, bits, its values as text
    ("inet_proto", 8, str),
    ("inet_service", 16, str),
    ("ipv4_addr", 32, dotted),
    ("mark", 32, hex),
    ("ether_addr", 48, lambda n: colons(n, 48, 8)),
    ("ipv6_addr", 128, lambda n: colons(n, 128, 16)),
]


def most_rules(bits):
    """The most rules that a field has in groups of eight bits."""
    return 64 * (MOST_BYTES // (bits // 8 * 256 * 8))


def width(bits, rules):
    return 8 if bits // 8 * 256 * 8 * ((rules + 63) // 64) <= MOST_BYTES else 4


def value(n, bits):
    """A value for each number, far from those of the numbers before and behind it; equal ones where the kind has fewer."""
    return n * 0x9E3779B97F4A7C15F39CC0605CEDC835 % (1 << bits)


# ---- tables by the definition

def field_lines(index, kind, bits, values):
    groups = width(bits, len(values))
    size = (len(values) + 7) // 8
    yield f"field {index} {kind} width {groups} rules {len(values)}"
    for group in range(bits // groups):
        buckets = {}
        for rule, number in enumerate(values):
            bucket = number >> bits - groups * (group + 1) & (1 << groups) - 1
            bitmap = buckets.setdefault(bucket, bytearray(size))
            bitmap[rule // 8] |= 1 << rule % 8
        first = 0
        for bucket in range(1 << groups):
            if buckets.get(bucket) != buckets.get(bucket + 1) or bucket + 1 == 1 << groups:
                if bucket in buckets:
                    yield f"row {group} {first}-{bucket} {buckets[bucket].hex()}"
                first = bucket + 1


def set_lines(kind, bits, numbers):
    """The tables of the elements of these numbers: a mark each, and a value of the kind."""
    yield "set ip t s"
    yield from field_lines(0, "mark", 32, [value(n, 32) for n in numbers])
    yield from (f"map {i} 1" for i in range(len(numbers)))
    yield from field_lines(1, kind, bits, [value(n, bits) for n in numbers])
    yield from (f"end {i}" for i in range(len(numbers)))


# ---- elements

def element(text, bits, n):
    return f"{value(n, 32):#x} . {text(value(n, bits))}"
