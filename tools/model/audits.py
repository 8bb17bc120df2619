"""Audits of gateways' histories and nodes that are moved by hand, and of what a loop left.

An audit asks the histories of the gateways for each copy of each packet. A copy stands where its gateway has filed it,
at once or as a release, in the epoch of the node's restart counter.

    python3 audits.py FIRST COUNT PROGRAM

draws as many cases from the numbers FIRST, FIRST + 1 and so on, and compares what PROGRAM (bench/audits) prints with
what is found here. Where nothing is drawn, `python3 audits.py` checks the worked values.
"""

import random
import subprocess
import sys

import gateway
import wire
from gateway import Entry
from node import Copy, Node

FIRST_GATEWAY, FIRST_NODE = 127 << 24 | 11, 127 << 24 | 101
PORTS = {1: 40_001, 2: 40_002}
LENGTH, WANTED = 65_536, 1


def stands(history, node, copy):
    """Whether a copy of a node stands at the gateway with this history."""
    path, entries = gateway.present_path(history, node.address), gateway.present(history, node.address)
    number = gateway.near(gateway.top_among(entries), copy.number % 65_536)
    start = path.counter if path else 0
    state = gateway.state_among(entries, number)
    return start == node.counter and number == copy.number and state in ("Filed", "Released")


def places(histories, node, packet):
    """How many copies of a packet stand."""
    return sum(stands(histories[copy.gateway], node, copy) for copy in packet.copies)


def audit(histories, nodes):
    """The first packet, by node and number, of which more than one copy stands, or none though it is resolved: the
    place of its node, its number and how many copies stand. None where there is no such packet."""
    for place, node in enumerate(nodes):
        for packet in node.ever:
            count = places(histories, node, packet)
            if count > WANTED or count == 0 and packet.was_resolved:
                return place, packet.packet, count
    return None


def end_of(histories, nodes, packets):
    """How a loop ends that nothing stopped: a word, with the packet and the count that it names."""
    undone = [
        (place, number)
        for place, node in enumerate(nodes)
        for number in range(1, packets + 1)
        if number > len(node.ever) or node.ever[number - 1] in node.open
    ]
    if undone:
        return "unfinished", *undone[0], len(undone)
    wrong = audit(histories, nodes)
    return ("fine",) if wrong is None else ("wrong", *wrong)


class Case:
    """A case that is drawn: its lines, and what each audit among them finds."""

    def __init__(self, number):
        self.draw = random.Random(number)
        gateways, nodes = self.draw.randint(1, 4), self.draw.randint(1, 3)
        addresses = [FIRST_GATEWAY + place for place in range(gateways)]
        self.nodes = [Node(FIRST_NODE + place, addresses) for place in range(nodes)]
        self.histories = [[Entry(0, "Start")] for _ in range(gateways)]
        self.sent, self.replies = [], []
        self.lines, self.found = [f"begin {gateways} {nodes}"], []
        likely = self.draw.choice((0, 0.02, 0.1, 0.3))
        for node in range(nodes):
            self.tick(node)
        for _ in range(self.draw.randint(5, 150)):
            self.step(likely)
        self.audit()

    def step(self, likely):
        place = self.draw.randrange(len(self.nodes))
        if self.draw.random() < likely:
            faults = (self.forge_answer, self.forge_epoch, self.redirect, self.redirect, self.misdeliver, self.alter, self.alter)
            self.draw.choice(faults)(place)
            return
        kind = self.draw.random()
        if kind < 0.12:
            self.submit(place)
        elif kind < 0.3:
            self.tick(place)
        elif kind < 0.65 and self.sent:
            self.deliver(self.taken(self.sent))
        elif kind < 0.97 and self.replies:
            self.answered(*self.taken(self.replies))
        elif kind >= 0.97:
            self.audit()

    def taken(self, pool):
        """One of a pool, which may stay in it, so that it comes again."""
        at = self.draw.randrange(len(pool))
        return pool[at] if self.draw.random() < 0.15 else pool.pop(at)

    # What the lines do.

    def submit(self, place):
        count = self.draw.randint(1, 5)
        self.lines.append(f"submit {place} {count}")
        self.nodes[place].submit(1, 0x0600, [bytes((0x85, 5, 0, 0, 0, 0, record)) for record in range(count)])

    def tick(self, place):
        self.lines.append(f"tick {place}")
        self.sent += [(place, out.port, out.gateway, out.octets) for out in self.nodes[place].tick()]

    def take(self, place, port, to, octets):
        """A gateway is given a datagram of a node's port: its reply or None."""
        self.lines.append(f"take {to} {place} {port} {octets.hex()}")
        sender = (FIRST_NODE + place, PORTS[port])
        reply, _, entry = gateway.answer(self.histories[to], sender, octets, 0, LENGTH)
        if entry is not None:
            self.histories[to] = self.histories[to] + [entry]
        return reply

    def hear(self, place, port, sender, octets):
        self.lines.append(f"hear {place} {port} {sender} {octets.hex()}")
        return self.nodes[place].hear(port, FIRST_GATEWAY + sender, octets)[0]

    def audit(self):
        self.lines.append("audit")
        wrong = audit(self.histories, self.nodes)
        self.found.append("fine" if wrong is None else "wrong {}.{} {} of {}".format(*wrong, WANTED))

    # What comes of them.

    def deliver(self, message):
        place, port, to, octets = message
        reply = self.take(place, port, to, octets)
        if reply is not None:
            self.replies.append((place, port, to, reply))

    def answered(self, place, port, sender, octets):
        reply = self.hear(place, port, sender, octets)
        if reply is not None:
            self.sent.append((place, port, sender, reply))

    # What no node or gateway does.

    def forge_answer(self, place):
        """A packet that was sent once is told to be filed."""
        packets = [packet for packet in self.nodes[place].open if len(packet.copies) == 1]
        if packets:
            copy = self.draw.choice(packets).copies[0]
            self.hear(place, 1, copy.gateway, wire.response(128, copy.number % 65_536))

    def forge_epoch(self, place):
        """A gateway is told another restart counter of a node, or its own one again."""
        to = self.draw.randrange(len(self.histories))
        self.take(place, 1, to, wire.echo_response(7, self.draw.choice((0, 1, 1, 2, 255))))

    def redirect(self, place):
        """A node is told that its gateway is about to go down."""
        sender = self.nodes[place].favourite
        self.hear(place, 1, sender, wire.message(wire.REDIRECTION_REQUEST, 9, (wire.CAUSE, bytes((63,)))))

    def misdeliver(self, place):
        """A datagram comes to another gateway, whose reply is lost."""
        if self.sent:
            place, port, _, octets = self.draw.choice(self.sent)
            self.take(place, port, self.draw.randrange(len(self.histories)), octets)

    def alter(self, place):
        """A possible duplicate comes as one that is none, or the other way round, or a cancel as a release; the reply is
        lost."""
        requests = [message for message in self.sent if message[3][1] == wire.TRANSFER_REQUEST]
        if requests:
            place, port, to, octets = self.draw.choice(requests)
            other = {wire.SEND: wire.POSSIBLE, wire.POSSIBLE: wire.SEND}.get(octets[7])
            if other is not None:
                self.take(place, port, to, octets[:7] + bytes((other,)) + octets[8:])


def check():
    """The worked values: a packet that two gateways filed, one that one filed, and one that none did though its node
    was told so."""
    node = Node(FIRST_NODE, [FIRST_GATEWAY, FIRST_GATEWAY + 1])
    node.submit(1, 0x0600, [b"\x85\x01\x05"])
    packet = node.ever[0]
    packet.copies += [Copy(0, 65_536), Copy(1, 65_536)]
    begun = [Entry(0, "Start"), Entry(0, "Path", node.address, port=40_001, counter=1)]
    filed = begun + [Entry(0, "File", node.address, (65_536,), wire.packet(packet.value))]
    assert audit([filed, filed], [node]) == (0, 1, 2)
    assert audit([begun, filed], [node]) is None and audit([begun, begun], [node]) is None
    assert end_of([filed, begun], [node], 1) == ("unfinished", 0, 1, 1)
    packet.was_resolved = True
    assert audit([begun, begun], [node]) == (0, 1, 0) and audit([begun, filed], [node]) is None
    node.open.remove(packet)
    assert end_of([filed, begun], [node], 1) == ("fine",)
    assert end_of([filed, filed], [node], 1) == ("wrong", 0, 1, 2)
    assert end_of([filed, begun], [node], 3) == ("unfinished", 0, 2, 2)
    assert audit([filed + [Entry(0, "Path", node.address, port=40_001, counter=2)], begun], [node]) == (0, 1, 0)


def main(first, count, program):
    cases = [Case(number) for number in range(first, first + count)]
    text = "".join(line + "\n" for case in cases for line in case.lines)
    ran = subprocess.run([program], input=text.encode(), capture_output=True, check=True)
    printed = iter(ran.stdout.decode().splitlines())
    kinds, differing = {}, []
    for number, case in enumerate(cases, first):
        answers = [next(printed, "nothing") for _ in case.found]
        if answers != case.found:
            differing.append(number)
            print(f"{number} differs: {answers} where {case.found} is wanted")
        for found in case.found:
            kind = " ".join(found.split()[::2])
            kinds[kind] = kinds.get(kind, 0) + 1
    told = ", ".join(f"{count} {kind}" for kind, count in sorted(kinds.items()))
    print(f"{count} cases with {told}: {len(differing)} differ")
    return bool(differing) or next(printed, None) is not None


if __name__ == "__main__":
    if len(sys.argv) == 1:
        sys.exit(check())
    sys.exit(main(int(sys.argv[1]), int(sys.argv[2]), sys.argv[3]))
