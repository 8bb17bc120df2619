"""Writes the script of a feed that is to be timed: `python3 scripts.py KIND OCTETS`. It has about so many octets, at
most, and of a kind that has keys so many thousands of them as go with the octets.
"""

import sys

WHOLE = 16_777_216
PACKET = "FC000B010106000005A003800105"
NODES = 64
SCATTER = 7919  # a prime: its multiples go through all places of a list whose length it doesn't divide


def line(node, datagram):
    return f"in 10.0.1.{node}:40001 {datagram}\n"


def send(node, number):
    return line(node, f"4EF00010{number & 0xFFFF:04X}7E01{PACKET}")


def hold(node, number):
    return line(node, f"4EF00010{number & 0xFFFF:04X}7E02{PACKET}")


def test(node, number):
    return line(node, f"4EF00005{number & 0xFFFF:04X}7E02FC0000")


def release(node, number, numbers):
    listed = "".join(f"{each & 0xFFFF:04X}" for each in numbers)
    octets = len(listed) // 2
    return line(node, f"4EF0{octets + 5:04X}{number & 0xFFFF:04X}7E04F9{octets:04X}{listed}")


def as_many(made, octets):
    """The lines that are made, as many as there is room for."""
    for each in made:
        octets -= len(each)
        if octets < 0:
            return
        yield each


def echoes(_):
    """Echo Requests: the smallest datagrams that are answered."""
    while True:
        yield "in 1.1.1.1:1 4E0100000001\n"


def packets(_):
    """Packets of one node with one record each, and rising numbers: each is filed."""
    number = 0
    while True:
        yield send(1, number)
        number += 1


def falling(octets):
    """Packets of 64 nodes with falling numbers: each is filed."""
    number = octets // len(send(10, 0)) // NODES + 1
    while number >= 0:
        for node in range(1, NODES + 1):
            yield send(node, number)
        number -= 1


def files(_):
    """Packets, each of which gives a file: a record a file, in sixteen streams by the last of 256 rules each."""
    yield "limit records 1\n"
    yield from ("rule A1 1 15\n" for _ in range(240))
    yield from (f"rule {0x80 + stream:02X} 1 {stream}\n" for stream in range(16))
    number = 0
    while True:
        yield line(1, f"4EF0000D{number & 0xFFFF:04X}7E01FC0008010106000002{0x80 + number % 16:02X}00")
        number += 1


def held(octets):
    """64,000 copies that are held, tests of them all over, and at last the release of each, in a scattered order."""
    yield "reserve 33554432\n"
    count = 64_000 * octets // WHOLE
    for each in range(count):
        yield hold(1 + each % NODES, each // NODES)
    left = octets - count * (len(hold(10, 0)) + len(release(10, 0, [0])))
    for each in range(left // len(test(10, 0))):
        place = each * SCATTER % count
        yield test(1 + place % NODES, place // NODES)
    for each in range(count):
        place = each * SCATTER % count
        yield release(1 + place % NODES, 32_000, [place // NODES])


def lists(octets):
    """40,000 copies that two nodes hold, then the longest lists of them, scattered, each with a number at its end that
    isn't held: 254, and nothing is released; at last a list that releases all of one node."""
    yield "reserve 33554432\n"
    count = 20_000 * octets // WHOLE
    for each in range(count):
        yield hold(1, each)
        yield hold(2, each)
    most = 32_746
    left = octets - 2 * count * len(hold(1, 0))
    for each in range(left // (4 * most + 60) - 1):
        numbers = [(place + each) * SCATTER % count for place in range(most)]
        yield release(1 + each % 2, 32_000, numbers + [31_000])
    yield release(1, 32_000, range(count))


def epochs(_):
    """64 nodes that restart over and over, each time with one copy held, which is stranded."""
    yield "reserve 33554432\n"
    counter = 0
    while True:
        for node in range(1, NODES + 1):
            yield line(node, f"4E02000200000E{counter & 0xFF:02X}")
            yield hold(node, 0)
        counter += 1


KINDS = {make.__name__: make for make in (echoes, packets, falling, files, held, lists, epochs)}


def main(kind, octets):
    for each in as_many(KINDS[kind](octets - 4), octets - 4):
        sys.stdout.write(each)
    sys.stdout.write("end\n")


if __name__ == "__main__":
    main(sys.argv[1], int(sys.argv[2]))
