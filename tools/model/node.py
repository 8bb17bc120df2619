"""The node driver: where its packets are sent, what it knows of their copies, and what it sends at each tick.

A node keeps the packets that aren't done, and the set of what it heard since its start. What it knows is asked of that
set each time.
"""

from dataclasses import dataclass, field
from typing import Optional

import ber
import wire
from gateway import near

MOST_OPEN, NUMBERS_AHEAD, MOST_RECORDS, LARGEST = 64, 16_384, 255, 65_507
QUIET_TICKS = 3


@dataclass(frozen=True)
class Copy:
    """A copy of a packet: the place of its gateway in the node's list, and its request number."""

    gateway: int
    number: int


@dataclass(eq=False)
class Submitted:
    """A packet: its number over all starts, the restart counter, its value, its copies of which the first is the plain
    one, the number of the release or cancel of a duplicate where one was sent, the duplicate that was chosen for
    release, and whether it was ever resolved."""

    packet: int
    start: int
    value: bytes
    copies: list = field(default_factory=list)
    asked: dict = field(default_factory=dict)
    chosen: Optional[Copy] = None
    was_resolved: bool = False


@dataclass
class Outgoing:
    """A datagram of a tick: its port, 1 or 2, its gateway, the octets, and the number that is meant: that of a copy
    where one is named, else its own."""

    port: int
    gateway: int
    octets: bytes
    number: int
    named: Optional[int] = None


def draft_fault(format_, records):
    """Why a packet of these records can't be made: the first record that is refused decides. None where it can."""
    length = 15
    for count, record in enumerate(records):
        length += 2 + len(record)
        if count == MOST_RECORDS:
            return "Count"
        if length > LARGEST:
            return "TooBig"
        if format_ == 1:
            try:
                ber.check(record)
            except ber.Fault:
                return "Ber"
    return None


class Node:
    """A serving node with the addresses of its gateways."""

    def __init__(self, address, gateways):
        self.address, self.gateways = address, gateways
        self.ever = []
        self.resolved = self.done = self.counter = 0
        self.start()

    def start(self):
        self.counter += 1
        self.runs = True
        self.open, self.heard, self.alive = [], set(), set()
        self.paths = [0] * len(self.gateways)
        self.last = [65_535] * len(self.gateways)
        self.ticks = 0
        self.heard_at = [0] * len(self.gateways)
        self.favourite = self.appointed_at = 0

    def halt(self):
        self.runs = False

    # What it knows.

    def _is_heard(self, copy, port, *causes):
        return any((copy.gateway, copy.number, port, cause) in self.heard for cause in causes)

    def is_answered(self, packet, copy):
        """Whether the release or cancel of a duplicate was answered by 128 or 252, on either port."""
        if copy not in packet.asked:
            return False
        asked = Copy(copy.gateway, packet.asked[copy])
        return self._is_heard(asked, 1, 128, 252) or self._is_heard(asked, 2, 128, 252)

    def knows(self, packet, copy):
        """What is known of a copy."""
        if copy == packet.copies[0]:
            if self._is_heard(copy, 1, 128, 253) or self._is_heard(copy, 2, 253):
                return "Filed"
            return "Sealed" if self._is_heard(copy, 2, 128) else "Unknown"
        if self.is_answered(packet, copy):
            return "Released" if copy == packet.chosen else "Cancelled"
        if self._is_heard(copy, 2, 128):
            return "Sealed"
        return "Held" if self._is_heard(copy, 1, 128, 252) or self._is_heard(copy, 2, 252) else "Unknown"

    def is_resolved(self, packet):
        states = [self.knows(packet, copy) for copy in packet.copies]
        return bool(states) and (states[0] == "Filed" or "Released" in states)

    def is_done(self, packet):
        states = [self.knows(packet, copy) for copy in packet.copies[1:]]
        return self.is_resolved(packet) and all(state in ("Sealed", "Cancelled", "Released") for state in states)

    # Its calls.

    def submit(self, format_, version, records):
        """Takes a packet: None, or why it is refused."""
        fault = draft_fault(format_, records)
        if fault is not None:
            return fault
        if len(self.open) >= MOST_OPEN:
            return "InFlight"
        for gateway, last in enumerate(self.last):
            numbers = [copy.number for packet in self.open for copy in packet.copies if copy.gateway == gateway]
            if last + 1 - min(numbers, default=last + 1) >= NUMBERS_AHEAD:
                return "NumbersOut"
        packet = Submitted(len(self.ever) + 1, self.counter, wire.packet_value(format_, version, records))
        self.open.append(packet)
        self.ever.append(packet)
        return None

    def _draw(self, gateway):
        self.last[gateway] += 1
        return self.last[gateway]

    def _move(self, to=None):
        """Appoints the next gateway, or the one named."""
        if len(self.gateways) > 1:
            self.favourite = (self.favourite + 1) % len(self.gateways) if to is None else to
            self.appointed_at = self.ticks

    def _is_silent(self):
        """Whether the favourite was silent for long though something is wanted of it."""
        since = max(self.appointed_at, self.heard_at[self.favourite])
        copies = [(packet, copy) for packet in self.open for copy in packet.copies if copy.gateway == self.favourite]
        is_wanting = self.favourite not in self.alive or any(self.knows(*each) == "Unknown" for each in copies)
        return self.ticks - since >= QUIET_TICKS and is_wanting

    def tick(self):
        """What is sent, in its order."""
        if self._is_silent():
            self._move()
        sent = []
        for gateway in range(len(self.gateways)):
            if gateway not in self.alive:
                number = self.paths[gateway]
                sent.append(Outgoing(1, gateway, wire.alive_request(number, self.address), number))
                self.paths[gateway] = (number + 1) % 65_536
        for packet in self.open:
            sent += self._sendings(packet)
        self.ticks += 1
        return sent

    def _sendings(self, packet):
        """What a tick sends for an open packet."""
        is_alive = self.favourite in self.alive
        if not packet.copies:
            return [self._sent(packet, self._copy(packet))] if is_alive else []
        plain, others = packet.copies[0], packet.copies[1:]
        state = self.knows(packet, plain)
        if state == "Unknown":
            if any(self.knows(packet, copy) == "Held" for copy in others):
                return [self._test(plain)]
            there = [copy for copy in packet.copies if copy.gateway == self.favourite]
            if there:
                return [self._sent(packet, there[0])]
            return [self._sent(packet, self._copy(packet))] if is_alive else []
        sent = []
        if state == "Sealed":
            held = [copy for copy in others if self.knows(packet, copy) == "Held"]
            if packet.chosen is None and held:
                packet.chosen = held[0]
            if packet.chosen is not None and not self.is_answered(packet, packet.chosen):
                sent.append(self._ask(packet, packet.chosen, wire.RELEASE))
            others = [copy for copy in others if copy != packet.chosen]
        for copy in others:
            if self.knows(packet, copy) == "Unknown":
                sent.append(self._test(copy))
            elif self.knows(packet, copy) == "Held":
                sent.append(self._ask(packet, copy, wire.CANCEL))
        return sent

    def _copy(self, packet):
        packet.copies.append(Copy(self.favourite, self._draw(self.favourite)))
        return packet.copies[-1]

    def _sent(self, packet, copy):
        command = wire.SEND if copy == packet.copies[0] else wire.POSSIBLE
        octets = wire.transfer_request(copy.number, command, packet.value)
        return Outgoing(1, copy.gateway, octets, copy.number)

    def _test(self, copy):
        return Outgoing(2, copy.gateway, wire.transfer_request(copy.number, wire.POSSIBLE, b""), copy.number)

    def _ask(self, packet, copy, command):
        """A release or a cancel of a duplicate, under a number drawn when it is first sent."""
        if copy not in packet.asked:
            packet.asked[copy] = self._draw(copy.gateway)
        number = packet.asked[copy]
        return Outgoing(2, copy.gateway, wire.transfer_request(number, command, copy.number), number, copy.number)

    def hear(self, port, sender, octets):
        """The reply or None, why it is dropped or None, the first packet that became resolved and the first that
        became done, or None."""
        if sender not in self.gateways:
            return None, "Stray", None, None
        gateway, found = self.gateways.index(sender), wire.reading("node", octets)
        if found[0] == "drop":
            return None, found[1], None, None
        unresolved = [packet for packet in self.open if not self.is_resolved(packet)]
        self.heard_at[gateway] = self.ticks
        reply = self._heed(port, gateway, found)
        resolved = [packet for packet in unresolved if self.is_resolved(packet)]
        done = [packet for packet in self.open if self.is_done(packet)]
        for packet in resolved:
            packet.was_resolved = True
        self.resolved += len(resolved)
        self.done += len(done)
        self.open = [packet for packet in self.open if packet not in done]
        return reply, None, *(next((packet.packet for packet in each), None) for each in (resolved, done))

    def _heed(self, port, gateway, found):
        """Takes in what was read of a gateway's datagram; answers the reply or None."""
        if found[0] == "version":
            return wire.message(wire.VERSION, found[1])
        if found[0] == "refused":
            return wire.redirection_response(found[3], found[1])
        _, kind, number, body = found
        if kind == wire.ECHO_REQUEST:
            return wire.echo_response(number, self.counter % 256)
        if kind == wire.ALIVE_RESPONSE:
            self.alive.add(gateway)
        elif kind == wire.REDIRECTION_REQUEST:
            if gateway == self.favourite:
                self._move(self._recommended(body[1]))
            return wire.redirection_response(number, 128)
        elif kind == wire.TRANSFER_RESPONSE:
            cause, numbers = body
            self.heard |= {(gateway, near(self.last[gateway], each), port, cause) for each in numbers}
            if cause in (199, 204) and port == 1 and gateway == self.favourite:
                self._move()
        return None

    def _recommended(self, to):
        """The place of the gateway that a redirection names, where it is another than the favourite."""
        address = None if to is None or len(to) != 4 else int.from_bytes(to, "big")
        others = [place for place, each in enumerate(self.gateways) if place != self.favourite and each == address]
        return others[0] if others else None
