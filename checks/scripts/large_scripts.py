#!/usr/bin/env python3
"""Writes a script for measuring the whole program: NAME COUNT.

transactions   a set of 100 ports, and so many transactions of one change each
elements       one set of so many ranges of addresses and ports, with expiries and comments
commits        the same, and behind it 100 transactions of one change each
missing        the same, and behind it 1,000 destructions of elements that aren't there
expired        up to 29,999 elements that all hold the port 30000, with a life of one second
refused        so many elements that are read and, since the first change is refused, never tried
"""
import random
import sys


def transactions(count):
    print("add set ip t p { type inet_service ; flags interval ; }")
    print("add element ip t p {", ", ".join(str(port) for port in range(100)), "}")
    print("commit")
    for n in range(count):
        port = 1000 + n // 2 % 100
        print("add" if n % 2 == 0 else "delete", "element ip t p {", port, "}")
        print("commit")


def elements(count):
    rng = random.Random(2026)
    print("add set ip t s { type ipv4_addr . inet_service ; flags interval ; timeout 1d ; }")
    for n in range(count):
        low = rng.randrange((1 << 32) - 64)
        port = rng.randrange(65536 - 64)
        first, last = (".".join(str(value >> shift & 255) for shift in (24, 16, 8, 0)) for value in (low, low + rng.randrange(64)))
        print(f"add element ip t s {{ {first}-{last} . {port}-{port + rng.randrange(64)} comment \"number {n}\" }}")


def commits(count):
    elements(count)
    print("commit")
    for n in range(100):
        print("add" if n % 2 == 0 else "delete", "element ip t s { 0.0.0.1 . 1 }")
        print("commit")


def missing(count):
    elements(count)
    print("commit")
    print("destroy element ip t s {", ", ".join(f"0.0.0.1 . {port}" for port in range(1000)), "}")


def expired(count):
    print("add set ip t p { type inet_service ; flags interval,timeout ; timeout 1s ; }")
    for n in range(1, count + 1):
        print(f"add element ip t p {{ {30000 - n}-{30000 + n} }}")


def refused(count):
    print("add set inet filter blocked { type ipv6_addr . inet_service ; flags interval,timeout ; }")
    print("delete element inet filter blocked { ::1 . 1 }")
    for n in range(count):
        print(f"add element inet filter blocked {{ 2001:db8:{n >> 16:x}:{n & 65535:x}::/64 . 1024-65535 timeout 1h30m comment \"n\" }}")


if __name__ == "__main__":
    makers = [transactions, elements, commits, missing, expired, refused]
    {maker.__name__: maker for maker in makers}[sys.argv[1]](int(sys.argv[2]))
