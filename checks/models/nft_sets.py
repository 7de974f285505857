"""The running kernel's sets by nft(8): values and intervals as nft writes them, and what a lookup finds."""

import ipaddress
import re
import socket
import subprocess

from transcripts import BITS


def text(kind, value):
    if kind == "ipv4_addr":
        return str(ipaddress.IPv4Address(value))
    if kind == "ipv6_addr":
        return str(ipaddress.IPv6Address(value))
    if kind == "ether_addr":
        return ":".join(f"{value >> shift & 255:02x}" for shift in range(40, -8, -8))
    return str(value)


def part_text(kind, part):
    low, high = part
    return text(kind, low) if low == high else f"{text(kind, low)}-{text(kind, high)}"


def parts_text(kinds, parts):
    return " . ".join(part_text(kind, part) for kind, part in zip(kinds, parts))


def number(kind, word):
    """The number of a value as nft writes it, or none."""
    try:
        if kind == "ipv4_addr":
            return int(ipaddress.IPv4Address(word))
        if kind == "ipv6_addr":
            return int(ipaddress.IPv6Address(word))
        if kind == "ether_addr":
            return int(word.replace(":", ""), 16) if word.count(":") == 5 else None
        return int(word, 0) if word[0].isdigit() else socket.getprotobyname(word)
    except (ValueError, OSError):
        return None


def interval(kind, word):
    """The interval of a field as nft writes it: a value, a block or a range."""
    value = number(kind, word)
    if value is not None:
        return value, value
    if "/" in word:
        base, fixed = word.split("/")
        low = number(kind, base)
        return low, low + (1 << BITS[kind] - int(fixed)) - 1
    for place in (place for place, letter in enumerate(word) if letter == "-"):
        low, high = number(kind, word[:place]), number(kind, word[place + 1:])
        if low is not None and high is not None:
            return low, high
    raise ValueError(f"no interval: {word}")


def nft(*words):
    return subprocess.run(["nft", *words], capture_output=True, text=True)


def found(kinds, key):
    """The intervals that the kernel finds for a key, or none."""
    words = " . ".join(text(kind, value) for kind, value in zip(kinds, key))
    asked = nft("get", "element", "ip", "t", "s", f"{{ {words} }}")
    element = re.search(r"elements = { (.*) }", asked.stdout)
    if asked.returncode != 0 or element is None:
        return None
    return tuple(interval(kind, field) for kind, field in zip(kinds, element.group(1).split(" . ")))
