"""The command `replay`: all gateways and nodes of a script, with losses, repeats, delays, restarts, stops and faults.

    python3 world.py FILE
"""

import sys
from typing import NamedTuple, Optional

import feed
import files
import gateway as book
import script
import shelf
import wire
from gateway import Entry
from node import Node
from pcg import Pcg32

BATCH, LEAST_FREE, COMMIT_CALLS = 1_048_576, 270_000, 4
FIRST_PORT, LAST_START = 40_000, 255


class Message(NamedTuple):
    """A message that was sent: its ends as ("g", number) or ("n", number, port), its octets, the start number of its
    node, the absolute number that its request bears, and that of the copy which a release or cancel names."""

    sender: tuple
    receiver: tuple
    octets: bytes
    start: int
    number: int = 0
    named: Optional[int] = None

    def kind(self):
        return self.octets[1]

    def wire_number(self):
        return int.from_bytes(self.octets[4:6], "big")


class Stopped(Exception):
    """An armed call has stopped a gateway: the line ends."""


class Refused(Exception):
    """The world refuses a line, by a kind."""


class Gateway:
    """A gateway: its history and how much of it is firm, the entries of a failed commit, the replies that wait, the
    files that are sealed on its shelf, how many items their writer has taken since it recovered or None where it has to
    recover first, and what is armed for the calls of the area and of the shelf."""

    def __init__(self, number):
        self.number = number
        self.history, self.firm = [Entry(0, "Start")], 1
        self.state = "runs"
        self.torn, self.is_torn_whole = [], False
        self.waiting = []
        self.redirects = 0
        self.files, self.taken = {}, None
        self.armed = {"area": None, "shelf": None}

    def has_full_batch(self):
        octets = sum(entry.cost() - 5 for entry in self.history[self.firm :])
        return BATCH - octets < LEAST_FREE

    def call(self, device="area"):
        """One counted call of the area or the shelf: None, "fail", or the mode of a stop."""
        if self.armed[device] is None:
            return None
        left, outcome = self.armed[device]
        self.armed[device] = (left - 1, outcome) if left > 1 else None
        return outcome if left == 1 else None

    def disarm(self):
        """Nothing is armed any more."""
        self.armed = {"area": None, "shelf": None}

    def cut(self, history):
        """A stop leaves this history, and ends the writer of files too."""
        self.history, self.firm = history, len(history)
        self.state, self.torn, self.waiting, self.taken = "down", [], [], None
        self.disarm()

    def open(self, reserve):
        """Opens a gateway that is down; its Start waits for the next commit."""
        self.state, self.redirects = "runs", 0
        start = Entry(book.moment_of(self.history, 0), "Start")
        if book.has_room(self.history, start, reserve):
            self.history = self.history + [start]


class World:
    """The gateways, the nodes, the moment and all messages, with the lines that were written."""

    def __init__(self, lines):
        self.settings, self.moment, self.written = files.Settings(lines), 0, []
        self.gateways = [Gateway(number) for number in range(1, self.settings.gateways + 1)]
        addresses = [10 << 24 | gateway.number for gateway in self.gateways]
        self.nodes = [Node(10 << 24 | 256 | number, addresses) for number in range(1, self.settings.nodes + 1)]
        self.messages, self.passed = [], set()

    # Messages.

    def say(self, line):
        self.written.append(line)

    def send(self, message):
        self.messages.append(message)
        sender, receiver = (f"{end[0]}{end[1]}" + "".join(f":{port}" for port in end[2:]) for end in message[:2])
        self.say(f"m {len(self.messages)} {sender} {receiver} {message.octets.hex().upper()}")

    def is_expired(self, message):
        """Whether its ends take a message for another than was meant."""
        if message.receiver[0] == "n":
            node, gateway = self.nodes[message.receiver[1] - 1], message.sender[1] - 1
            is_other = book.near(node.last[gateway], message.number % 65_536) != message.number
            return message.start != node.counter or message.kind() == wire.TRANSFER_RESPONSE and is_other
        history, node = self.gateways[message.receiver[1] - 1].history, self.nodes[message.sender[1] - 1].address
        path = book.present_path(history, node)
        start = path.counter if path else 0
        if message.kind() != wire.TRANSFER_REQUEST:
            return message.start < start
        meant = message.number if message.named is None else message.named
        top = book.top_among(book.present(history, node))
        return message.start != start or book.near(top, meant % 65_536) != meant

    def deliver(self, number):
        message = self.messages[number - 1]
        self.passed.add(number)
        if message.receiver[0] == "g":
            self.deliver_to_gateway(number, message, self.gateways[message.receiver[1] - 1])
        else:
            self.deliver_to_node(number, message, self.nodes[message.receiver[1] - 1])

    def deliver_to_gateway(self, number, message, gateway):
        if gateway.state == "down":
            return self.say(f"down {number}")
        if gateway.state == "broken" and not self.commit(gateway):
            return None
        if self.is_expired(message):
            return self.say(f"expired {number}")
        if gateway.has_full_batch() and not self.commit(gateway):
            reply, why, entry = None, "Device", None
            if message.kind() == wire.TRANSFER_REQUEST:
                reply, why = wire.response(204, message.wire_number()), None
        else:
            sender = self.nodes[message.sender[1] - 1].address, FIRST_PORT + message.sender[2]
            reserve = self.settings.reserve
            reply, why, entry = book.answer(gateway.history, sender, message.octets, self.moment, reserve)
        if entry is not None:
            gateway.history = gateway.history + [entry]
        if why is not None:
            return self.say(f"drop {number} {why}")
        answer = Message(message.receiver, message.sender, reply, message.start, message.number)
        if gateway.firm == len(gateway.history):
            return self.send(answer)
        return gateway.waiting.append(answer)

    def deliver_to_node(self, number, message, node):
        if not node.runs:
            return self.say(f"down {number}")
        if self.is_expired(message):
            return self.say(f"expired {number}")
        _, name, port = message.receiver
        reply, why, resolved, done = node.hear(port, 10 << 24 | message.sender[1], message.octets)
        if why is not None:
            return self.say(f"drop {number} {why}")
        if reply is not None:
            self.send(Message(message.receiver, message.sender, reply, node.counter))
        for word, packet in (("resolved", resolved), ("done", done)):
            if packet is not None:
                self.say(f"{word} {name}.{packet}")
        return None

    # Commits.

    def commit(self, gateway):
        """Opens a broken gateway again, or makes its entries firm; whether that succeeded. A stop ends the line."""
        if gateway.state == "broken":
            outcome = gateway.call()
            if outcome is None:
                gateway.history = gateway.history + (gateway.torn if gateway.is_torn_whole else [])
                gateway.firm, gateway.state, gateway.torn = len(gateway.history), "runs", []
                return True
            keeps = outcome == "new" and gateway.is_torn_whole
            if outcome == "fail":
                self.say(f"fault {gateway.number}")
                return False
            self.stop(gateway, gateway.history + (gateway.torn if keeps else []))
        if gateway.firm < len(gateway.history):
            for call in range(1, COMMIT_CALLS + 1):
                outcome = gateway.call()
                if outcome == "fail":
                    self.fault(gateway, call)
                    return False
                if outcome is not None:
                    keeps = outcome == "new" and call >= 3
                    self.stop(gateway, gateway.history if keeps else gateway.history[: gateway.firm])
        gateway.firm = len(gateway.history)
        waiting, gateway.waiting = gateway.waiting, []
        for answer in waiting:
            self.send(answer)
        return True

    def stop(self, gateway, history):
        self.say(f"stopped {gateway.number}")
        gateway.cut(history)
        raise Stopped

    def fault(self, gateway, call):
        """A commit failed at one of its calls: the batch is torn, and each request that waits is answered 204."""
        self.say(f"fault {gateway.number}")
        gateway.torn, gateway.is_torn_whole = gateway.history[gateway.firm :], call == COMMIT_CALLS
        gateway.history, gateway.state = gateway.history[: gateway.firm], "broken"
        waiting, gateway.waiting = gateway.waiting, []
        for answer in waiting:
            if answer.kind() == wire.TRANSFER_RESPONSE:
                self.send(answer._replace(octets=wire.response(204, answer.wire_number())))

    def marks(self, gateway, is_close):
        """A Tick or a Close, where it is due and has room."""
        is_ready = gateway.state != "broken" and not gateway.has_full_batch()
        if is_ready or self.commit(gateway):
            if is_close:
                gateway.history = feed.closed(gateway.history, self.moment)
            else:
                gateway.history = feed.marked(gateway.history, self.moment, self.settings)

    # Files.

    def write(self, gateway):
        """The items of the firm entries are written into files, from the first on where the writer recovers."""
        items, taken = files.items(gateway.history[: gateway.firm]), gateway.taken or 0
        sealed, address = shelf.sealed_up_to(gateway.files), 10 << 24 | gateway.number
        gateway.taken = None
        for place, call in shelf.calls(items, sealed, self.settings, address):
            if place < taken:
                continue
            outcome = gateway.call("shelf")
            if isinstance(call, tuple) and outcome in (None, "new"):
                gateway.files[call[0]] = call[1]
            if outcome == "fail":
                return self.say(f"shelf fault {gateway.number}")
            if outcome is not None:
                self.stop(gateway, gateway.history[: gateway.firm])
        gateway.taken = len(items)
        return None

    # Lines.

    def waits(self):
        return [number for number in range(1, len(self.messages) + 1) if number not in self.passed]

    def mix(self, seed):
        """Loses, repeats, leaves or delivers each message that waits, by a word drawn for it."""
        generator = Pcg32.seed_from_u64(seed)
        for number in self.waits():
            lot = generator.next_word() % 8
            if lot == 0:
                self.passed.add(number)
            for _ in range({0: 0, 1: 2, 2: 0}.get(lot, 1)):
                self.deliver(number)

    def tick(self, node):
        for out in node.tick():
            sender, receiver = ("n", node.address & 255, out.port), ("g", out.gateway + 1)
            self.send(Message(sender, receiver, out.octets, node.counter, out.number, out.named))

    def redirect(self, gateway, cause, to):
        """A Redirection Request to each node with a path, in the order in which they became known."""
        for node in book.known(gateway.history):
            path = book.present_path(gateway.history, node)
            if path is not None:
                octets = wire.redirection_request(gateway.redirects, cause, None if to is None else 10 << 24 | to)
                receiver = ("n", node & 255, path.port - FIRST_PORT)
                self.send(Message(("g", gateway.number), receiver, octets, path.counter))
        gateway.redirects = (gateway.redirects + 1) % 65_536

    def settle(self):
        """Disarms all; opens, commits and closes each gateway, and writes its files."""
        for gateway in self.gateways:
            gateway.disarm()
        for gateway in self.gateways:
            if gateway.state == "down":
                gateway.open(self.settings.reserve)
            self.commit(gateway)
            self.marks(gateway, True)
            self.commit(gateway)
            self.write(gateway)

    def report(self):
        """The files of each history, which are those on its shelf, and all counts."""
        for gateway in self.gateways:
            lines = files.file_lines(gateway.number, gateway.history, self.settings)
            if lines != shelf.lines(gateway.number, gateway.files):
                raise ValueError(f"the shelf of gateway {gateway.number} has other files")
            self.written += lines
            self.say(feed.gateway_line(gateway.number, gateway.history))
        for number, node in enumerate(self.nodes, 1):
            self.say(f"node {number} packets {len(node.ever)} resolved {node.resolved} done {node.done}")

    def gateway(self, number):
        if not 1 <= number <= len(self.gateways):
            raise Refused("NoGateway")
        return self.gateways[number - 1]

    def node(self, number):
        if not 1 <= number <= len(self.nodes):
            raise Refused("NoNode")
        return self.nodes[number - 1]

    def run(self, form, values):
        """Runs a line; raises Refused where the world doesn't allow it."""
        if form == "at":
            if values[0] < self.moment:
                raise Refused("Earlier")
            self.moment = values[0]
        elif form in ("submit", "tick", "halt", "start"):
            self.run_node(form, self.node(values[0]), values[1:])
        elif form == "deliver":
            if not 1 <= values[0] <= len(self.messages):
                raise Refused("NoMessage")
            self.deliver(values[0])
        elif form == "flow":
            for number in self.waits():
                self.deliver(number)
        elif form == "mix":
            self.mix(values[0])
        elif form in ("settle", "end"):
            self.settle()
            if form == "end":
                self.report()
        elif form in GATEWAY_LINES:
            gateway = self.gateway(values[0])
            if form == "redirect" and values[2] is not None:
                self.gateway(values[2])
            self.run_gateway(form, gateway, values[1:])

    def run_node(self, form, node, values):
        if form != "start" and not node.runs:
            raise Refused("Halted")
        if form == "start":
            if node.runs:
                raise Refused("Running")
            if node.counter == LAST_START:
                raise Refused("Restarts")
            node.start()
        elif form == "halt":
            node.halt()
        elif form == "tick":
            self.tick(node)
        else:
            fault = node.submit(*values)
            name = node.address & 255
            self.say(f"packet {name}.{len(node.ever)}" if fault is None else f"refused {fault}")

    def run_gateway(self, form, gateway, values):
        if form != "open" and gateway.state == "down":
            raise Refused("Stopped")
        if form == "open":
            if gateway.state != "down":
                raise Refused("Running")
            gateway.open(self.settings.reserve)
        elif form == "stop":
            gateway.cut(gateway.history[: gateway.firm])
        elif form in ARMS:
            gateway.armed[ARMS[form]] = values[0], values[1] if form.startswith("arm") else "fail"
        elif form == "write":
            self.write(gateway)
        elif form == "commit":
            self.commit(gateway)
        elif form in ("mark", "close"):
            self.marks(gateway, form == "close")
        elif form == "redirect":
            self.redirect(gateway, *values)


ARMS = {"arm": "area", "fail": "area", "armshelf": "shelf", "failshelf": "shelf"}
GATEWAY_LINES = ("mark", "close", "commit", "write", "redirect", "stop", "open", *ARMS)


def play(lines):
    """The world that the lines of a script give, and the fault where the world refuses one."""
    world = World(lines)
    for place, (form, *values) in enumerate(lines, 1):
        try:
            world.run(form, values)
        except Stopped:
            pass
        except Refused as refused:
            return world, script.Fault(place, refused.args[0])
    return world, None


def run(lines):
    world, fault = play(lines)
    return world.written, fault


def replay(text):
    """The outcome of `replay` for a text."""
    return feed.outcome(text, "replay", run)


def summary(lines):
    """What `drill` prints of the lines of a sample: the sums of the counts in its report."""
    counts = dict.fromkeys(("packets", "resolved", "done", "records", "held", "stranded"), 0)
    for line in play(lines)[0].written:
        form, _, *words = line.split()
        for name, count in zip(words[::2], words[1::2]) if form in ("gateway", "node") else ():
            if name in counts:
                counts[name] += int(count)
    return "".join(f"{name} {count}\n" for name, count in counts.items()).encode()


if __name__ == "__main__":
    with open(sys.argv[1], "rb") if sys.argv[1] != "-" else sys.stdin.buffer as source:
        out, status, error = replay(source.read())
    sys.stdout.buffer.write(out)
    sys.stderr.buffer.write(error)
    sys.exit(status)
