"""Sample scripts: worlds of nodes and gateways with losses, repeats, delays and stops, drawn from a number."""

import struct
import sys

from pcg import Pcg32
from script import print_


def records(packet):
    """The records of the packet of a number, from 0: one to five BER values that tell the packet and their place."""
    return tuple(b"\x85\x05" + struct.pack(">IB", packet, place) for place in range(1 + packet % 5))


class _Sample:
    """The lines so far, and the words drawn for them."""

    def __init__(self, seed, nodes, gateways):
        self.generator = Pcg32.seed_from_u64(seed)
        self.nodes = range(1, nodes + 1)
        self.gateways = range(1, gateways + 1)
        self.lines = [("gateways", gateways), ("nodes", nodes)]
        self.draws = []
        self.packets = 0
        self.moment = 1_700_000_000

    def word(self):
        self.draws.append(self.generator.next_word())
        return self.draws[-1]

    def ticks(self):
        self.lines += [("tick", node) for node in self.nodes]

    def commits(self, stopped=None):
        self.lines += [("commit", gateway) for gateway in self.gateways if gateway != stopped]

    def calm_rounds(self, count):
        for _ in range(count):
            self.ticks()
            self.lines.append(("flow",))
            self.commits()
            self.lines.append(("flow",))

    def wild_rounds(self, count, stopped):
        for _ in range(count):
            self.ticks()
            self.lines.append(("mix", self.word()))
            self.commits(stopped)
            self.lines.append(("mix", self.word()))

    def submits(self, packets):
        """Up to four packets of each node, while any are left."""
        for node in self.nodes:
            for _ in range(min(4, packets - self.packets)):
                self.lines.append(("submit", node, 1, 0x0600, records(self.packets)))
                self.packets += 1

    def block(self, packets):
        self.submits(packets)
        stopped = None
        if len(self.gateways) > 1:
            stopped = 1 + self.word() % len(self.gateways)
            self.lines.append(("stop", stopped))
        self.wild_rounds(6, stopped)
        if stopped is not None:
            self.lines.append(("open", stopped))
        self.calm_rounds(12)
        self.moment += 60
        self.lines.append(("at", self.moment))
        for gateway in self.gateways:
            self.lines += [("mark", gateway), ("write", gateway)]


def sample(seed, nodes, gateways, packets):
    """The lines of a sample, and the words drawn for it in their order."""
    drawn = _Sample(seed, nodes, gateways)
    drawn.lines.append(("at", drawn.moment))
    drawn.calm_rounds(4)
    while drawn.packets < packets:
        drawn.block(packets)
    drawn.lines.append(("end",))
    return drawn.lines, drawn.draws


if __name__ == "__main__":
    sys.stdout.buffer.write(print_(sample(*map(int, sys.argv[1:5]))[0]))
