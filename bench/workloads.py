#!/usr/bin/env python3
"""Writes a workload for bench/speed: NAME ELEMENTS [hit|miss|mixed], or one of bench/peers: NAME, or network_port ELEMENTS.

address-port   ranges of IPv4 addresses and of ports
long-port      ranges of IPv6 addresses and of ports
port-proto     small ranges of ports, and single protocols
same-element   one range of addresses and one of ports over and over (for `bench/speed expired`)

net_port port_net net6_port port_proto net6_port_mac net6_port_mac_proto net_mac net_port_100k
               as the performance part of the kernel's own test of these sets: each element has two values after the last
               one's in each field (one protocol), so that none overlap
ip_16k         16,384 addresses
net_port_mix net_port_mix_100k
               networks of many sizes, an eighth of them ranges; ports single, in small ranges, or open; in no order

network_port   networks of many sizes; ports single, 256 of one high byte, or all; in no order, and each field of an element is
               one rule, so that up to 1,048,576 elements fit

Half of the keys of the last two kinds match; of the others one in four is random, and the rest mix two elements.
"""
import random
import sys

BITS = {"ipv4_addr": 32, "ipv6_addr": 128, "ether_addr": 48, "inet_proto": 8, "inet_service": 16}


def interval(rng, bits, most):
    """An interval of 1 to 2^most values."""
    size = 1 << rng.randrange(most + 1)
    low = rng.randrange((1 << bits) - size)
    return low, low + rng.randrange(size)



def ranges(rng, count, bits, most):
    """Elements of two fields; an overlap is as rare as the space is wide."""
    return [(interval(rng, bits, most), interval(rng, 16, 6)) for _ in range(count)]


def port_proto(rng, count):
    protocols = max(1, (count + 999) // 1000)
    elements = []
    for n in range(count):
        proto = n % protocols
        low = 65 * (n // protocols) + rng.randrange(40)
        elements.append(((low, low + rng.randrange(3)), (proto, proto)))
    rng.shuffle(elements)
    return elements


# how the kernel's test makes a field's value of a number
FROM_NUMBER = {
    "ipv4_addr": lambda n: n + (10 << 24) + 5,
    "ipv6_addr": lambda n: (0x20010DB8 << 96) + n,
    "ether_addr": lambda n: (1 << 32) + n,
    "inet_service": lambda n: n % 65534 + 1,
    "inet_proto": lambda n: 17,
}


def in_pairs(kinds, count):
    elements, first = [], 1
    for _ in range(count):
        last = first + 1
        if last // 65534 > first // 65534:
            first, last = last, last + 1
        elements.append([(FROM_NUMBER[kind](first), FROM_NUMBER[kind](last)) for kind in kinds])
        first = last + 1
    return elements


def network(rng, base, room):
    bits = rng.choice([0, 0, 0, 2, 3, 4, 5, 6, 8, 8, 8, 12])
    while (2 << bits) > room:
        bits -= 1
    low = (base + (1 << bits) - 1) >> bits << bits
    return low, low + (1 << bits) - 1


def mixed_network(rng, base, room):
    if rng.random() < 1 / 8:
        low = base + rng.randrange(room // 2)
        return low, rng.randrange(low, base + room)
    return network(rng, base, room)


def mixed_ports(rng):
    share = rng.random()
    if share < 0.6:
        port = rng.choice([22, 25, 53, 80, 123, 443, 993, 3306, 5432, 8080, rng.randrange(1, 65536)])
        return port, port
    if share < 0.85:
        low = rng.randrange(1, 65000)
        return low, low + rng.randrange(1, 64)
    if share < 0.95:
        low = rng.randrange(256) << 8
        return low, low + 255
    return 1024, 65535


def ports_of_one_rule(rng):
    share = rng.random()
    if share < 0.75:
        port = rng.choice([22, 25, 53, 80, 123, 443, 993, 3306, 5432, 8080, rng.randrange(1, 65536)])
        return port, port
    if share < 0.9:
        low = rng.randrange(256) << 8
        return low, low + 255
    return 0, 65535


def in_no_order(rng, count, pick_network, pick_ports):
    """Elements of one network and some ports each, whose networks don't overlap."""
    room = (223 << 24) // count
    elements = [[pick_network(rng, (1 << 24) + n * room, room), pick_ports(rng)] for n in range(count)]
    rng.shuffle(elements)
    return elements


def addresses(rng, count):
    return [[(one, one)] for one in rng.sample(range(1 << 24, 224 << 24), count)]


NET, NET6, MAC, PORT, PROTO = "ipv4_addr", "ipv6_addr", "ether_addr", "inet_service", "inet_proto"
OF_PEERS = {
    "net_port": ([NET, PORT], 1000),
    "port_net": ([PORT, NET], 100),
    "net6_port": ([NET6, PORT], 1000),
    "port_proto": ([PORT, PROTO], 30000),
    "net6_port_mac": ([NET6, PORT, MAC], 10),
    "net6_port_mac_proto": ([NET6, PORT, MAC, PROTO], 1000),
    "net_mac": ([NET, MAC], 1000),
    "net_port_mix": ([NET, PORT], 1000),
    "ip_16k": ([NET], 16384),
    "net_port_100k": ([NET, PORT], 100000),
    "net_port_mix_100k": ([NET, PORT], 100000),
}
OF_SIZES = "network_port"


def holds(element, key):
    return all(low <= value <= high for (low, high), value in zip(element, key))


def missing_key(rng, kinds, elements):
    """A key that holds in neither of the elements that it is made of."""
    while True:
        one, other = rng.choice(elements), rng.choice(elements)
        if len(kinds) == 1 or rng.random() < 1 / 4:
            key = [rng.getrandbits(BITS[kind]) for kind in kinds]
        else:
            key = [rng.randint(low, high) for low, high in one]
            field = rng.randrange(len(kinds))
            key[field] = rng.choice([1, 6, 33, 47, 50, 58, 132]) if kinds[field] == PROTO else rng.randint(*other[field])
        if not holds(one, key) and not holds(other, key):
            return key


def of_peers(name):
    kinds, count = OF_PEERS[name]
    rng = random.Random("pipapo " + name)
    if name == "ip_16k":
        elements = addresses(rng, count)
    elif "mix" in name:
        elements = in_no_order(rng, count, mixed_network, mixed_ports)
    else:
        elements = in_pairs(kinds, count)
    return kinds, elements, half_matching(rng, kinds, elements)


def of_size(count):
    """The workload network_port, of so many elements."""
    rng = random.Random(f"pipapo network_port {count}")
    elements = in_no_order(rng, count, network, ports_of_one_rule)
    return [NET, PORT], elements, half_matching(rng, [NET, PORT], elements)


def half_matching(rng, kinds, elements):
    keys = []
    for n in range(65536 if len(elements) >= 100000 else 16384):
        if n % 2:
            keys.append([rng.randint(low, high) for low, high in rng.choice(elements)])
        else:
            keys.append(missing_key(rng, kinds, elements))
    rng.shuffle(keys)
    return keys


def drawn(name, count, share):
    rng = random.Random(2026)
    if name == "address-port":
        kinds, elements = [NET, PORT], ranges(rng, count, 32, 8)
    elif name == "long-port":
        kinds, elements = [NET6, PORT], ranges(rng, count, 128, 8)
    elif name == "port-proto":
        kinds, elements = [PORT, PROTO], port_proto(rng, count)
    elif name == "same-element":
        kinds, elements = [NET, PORT], [((10 << 24, (10 << 24) + 255), (80, 443))] * count
    else:
        sys.exit(__doc__)
    keys = []
    for _ in range(1000):
        if rng.random() < share:
            keys.append([rng.randint(low, high) for low, high in rng.choice(elements)])
        else:
            keys.append([rng.randrange(1 << BITS[kind]) for kind in kinds])
    return kinds, elements, keys


def main():
    if len(sys.argv) == 2 and sys.argv[1] in OF_PEERS:
        kinds, elements, keys = of_peers(sys.argv[1])
    elif len(sys.argv) == 3 and sys.argv[1] == OF_SIZES:
        kinds, elements, keys = of_size(int(sys.argv[2]))
    elif len(sys.argv) in (3, 4):
        share = {"hit": 1.0, "miss": 0.0, "mixed": 0.5}[sys.argv[3] if len(sys.argv) > 3 else "mixed"]
        kinds, elements, keys = drawn(sys.argv[1], int(sys.argv[2]), share)
    else:
        sys.exit(__doc__)
    print("fields", *kinds)
    for element in elements:
        print("e", *(f"{low:x}-{high:x}" for low, high in element))
    for key in keys:
        print("k", *(f"{value:x}" for value in key))


if __name__ == "__main__":
    main()
