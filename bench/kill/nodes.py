"""Nodes that send packets to a gateway until each is answered, and know which records must be filed."""

import selectors
import socket
import struct
import sys
import time
from pathlib import Path

sys.path.insert(0, str(Path(__file__).resolve().parents[2] / "tools" / "model"))
import wire

ACCEPTED, FAILED, DONE_BEFORE, FULFILLED, NOT_FULFILLED = 128, 204, 252, 253, 255
FIRST_TIME_OUT, LAST_TIME_OUT = 0.05, 1.0
TAGS = (0x85, 0x86, 0x87)


class Wrong(Exception):
    """Something that a gateway must never do."""


def response(octets):
    """The cause and the number of a Data Record Transfer Response."""
    number = int.from_bytes(octets[4:6], "big")
    if octets[7:8] == b"" or octets != wire.response(octets[7], number):
        raise Wrong(f"an answer that is none: {octets.hex()}")
    return octets[7], number


class Request:
    """A request until it is answered: by `cause`, or by `again` too once it was sent twice. Then `then` is done."""

    def __init__(self, octets, cause, again, then):
        self.octets, self.cause, self.again, self.then = octets, cause, again, then
        self.times, self.sent_at, self.time_out = 0, 0.0, FIRST_TIME_OUT


class Node:
    """A node, by its last octet. Of its packets some are filed at once; some are sent as possible duplicates, and then
    released or cancelled; and of some the number is tested first, so that they are refused."""

    def __init__(self, last, draw, gateway):
        self.ip, self.draw, self.gateway = f"127.0.1.{last}", draw, gateway
        self.address = struct.pack(">I", 0x7F000100 + last)
        self.link = socket.socket(socket.AF_INET, socket.SOCK_DGRAM)
        self.link.bind((self.ip, 0))
        self.link.setblocking(False)
        self.next, self.under_way = 0, {}
        # the records that must be filed once they are answered, and those that may be, since they were asked for
        self.due, self.asked = set(), set()
        # what was answered, by kind and number, as entries of the journal name it; and how often nothing was done
        self.answered, self.failures = set(), 0

    def records(self, number):
        """New records: a value of BER each, which names the node, the packet and its place."""
        found = []
        for place in range(self.draw.choice((1, 1, 1, 2, 3))):
            value = self.address + struct.pack(">IB", number, place) + self.draw.randbytes(self.draw.choice((0, 3, 40)))
            found.append(bytes((self.draw.choice(TAGS), len(value))) + value)
        return tuple(found)

    def submit(self):
        """Begins with a packet."""
        number = self.take_number()
        records = self.records(number)
        packet = wire.packet_value(1, 0x0600, records)
        plan = self.draw.choice(("plain", "plain", "plain", "released", "cancelled", "sealed"))
        if plan == "plain":
            self.asked.update(records)
            self.send(number, wire.SEND, packet, FULFILLED, lambda: self.due.update(records))
        elif plan == "sealed":
            octets = wire.transfer_request(number, wire.SEND, packet)
            refused = Request(octets, NOT_FULFILLED, NOT_FULFILLED, lambda: None)
            self.send(number, wire.SEND, b"", ACCEPTED, lambda: self.go_on(number, refused))
        else:
            then = self.release if plan == "released" else self.cancel
            self.send(number, wire.POSSIBLE, packet, DONE_BEFORE, lambda: then(number, records))

    def take_number(self):
        self.next += 1
        return self.next - 1

    def send(self, number, command, body, again, then):
        self.go_on(number, Request(wire.transfer_request(number, command, body), ACCEPTED, again, then))

    def release(self, held, records):
        def then():
            self.due.update(records)
            self.answered.add(("named", held))

        self.asked.update(records)
        self.send(self.take_number(), wire.RELEASE, held, DONE_BEFORE, then)

    def cancel(self, held, _):
        self.send(self.take_number(), wire.CANCEL, held, DONE_BEFORE, lambda: self.answered.add(("named", held)))

    def go_on(self, number, sent):
        self.under_way[number % 65536] = number, sent
        self.transmit(sent)

    def transmit(self, sent):
        sent.times, sent.sent_at = sent.times + 1, time.monotonic()
        try:
            self.link.sendto(sent.octets, self.gateway)
        except OSError:
            pass  # lost on the way

    def hear(self):
        """Takes the answers that came: how many requests were answered."""
        count = 0
        while True:
            try:
                octets = self.link.recv(2048)
            except BlockingIOError:
                return count
            cause, wired = response(octets)
            number, sent = self.under_way.get(wired, (None, None))
            self.failures += cause == FAILED
            if sent is None or cause == FAILED:
                continue
            if sent.cause == NOT_FULFILLED and cause == ACCEPTED:
                continue  # a late answer to the test of the number, whose packet is under way now
            if cause != sent.cause and not (sent.times > 1 and cause == sent.again):
                raise Wrong(f"{self.ip} got cause {cause} for number {number}, sent {sent.times} times")
            del self.under_way[wired]
            self.answered.add(("own", number))
            count += 1
            sent.then()

    def send_again(self, now):
        for _, sent in self.under_way.values():
            if now - sent.sent_at >= sent.time_out:
                sent.time_out = min(2 * sent.time_out, LAST_TIME_OUT)
                self.transmit(sent)

    def hurry(self):
        """Waits no longer for answers than at first: they may be lost with a gateway that was killed."""
        for _, sent in self.under_way.values():
            sent.time_out = FIRST_TIME_OUT


class Nodes:
    """All nodes, each with at most so many requests under way."""

    def __init__(self, count, under_way, draw, gateway):
        self.all = [Node(last, draw, gateway) for last in range(1, count + 1)]
        self.most, self.answers = under_way, 0
        self.selector = selectors.DefaultSelector()
        for node in self.all:
            self.selector.register(node.link, selectors.EVENT_READ, node)

    def step(self, budget):
        """Sends what there is to send, of which so many packets may be new, and takes the answers of a moment: how many
        packets were new."""
        new = 0
        for node in self.all:
            while len(node.under_way) < self.most and new < budget:
                node.submit()
                new += 1
        for key, _ in self.selector.select(0.005):
            self.answers += key.data.hear()
        now = time.monotonic()
        for node in self.all:
            node.send_again(now)
        return new

    def hear(self):
        """Takes the answers that came before the gateway was killed. What isn't answered is soon sent again."""
        for node in self.all:
            self.answers += node.hear()
            node.hurry()

    def heard(self):
        """How many answers came, and how many of them told that a device failed."""
        return self.answers, sum(node.failures for node in self.all)

    def are_done(self):
        return not any(node.under_way for node in self.all)

    def due(self):
        return set().union(*(node.due for node in self.all))

    def asked(self):
        return set().union(*(node.asked for node in self.all))
