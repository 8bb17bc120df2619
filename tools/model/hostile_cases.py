"""Cases of a bad day, each drawn by a number: replays full of stops and failures, feeds of datagrams that are changed,
cut, torn and joined, and octets that are hardly a script, settings or a CDR file.
"""

import random

import files
import script
import serve_cases
import shelf
import show_files
import wire
from feed_scripts import Feed
from replay_scripts import MODES, Replay
from world import Refused, Stopped

DATAGRAMS = 200
SIGN = b"\x85\x04"
LENGTHS = (0, 1, 2, 5, 20, 60, 61, 300, 3_000)
COMMANDS = ("feed", "feed", "feed", "replay", "replay", "replay", "show", "show", "show", "serve")
WORDS = (*script.SETTINGS, *script.COUNTS, *script.BOTH, *script.FEED, *script.REPLAY)
WORDS = tuple(word.decode() for word in WORDS)
VALUES = "0|1|2|3|9|18446744073709551615|old|new|records|size|open|*|A0|0600|A003800105|10.0.1.1:40001|+01:00|-|x"
VALUES = VALUES.split("|")
MOST_RESERVED = 100_000_000


def mangled(draw, octets, other):
    """Octets that are changed somewhere: `other` is where a part may come from."""
    made = bytearray(octets)
    for _ in range(draw.choice((1, 1, 1, 2, 3, 8))):
        at = draw.randrange(len(made) + 1)
        to = min(at + draw.choice((1, 1, 2, 3, 8, 40)), len(made))
        kind = draw.randrange(12)
        if kind < 3 and at < len(made):
            made[at] ^= 1 << draw.randrange(8)
        elif kind == 3 and at < len(made):
            made[at] = draw.choice((0, 1, 127, 128, 129, 254, 255, draw.randrange(256)))
        elif kind == 4:
            del made[at:]
        elif kind == 5:
            del made[:at]
        elif kind == 6:
            made[at:] = other[draw.randrange(len(other) + 1) :]
        elif kind == 7:
            made += other
        elif kind == 8:
            made[at:at] = draw.randbytes(draw.choice((1, 2, 3, 9)))
        elif kind == 9:
            del made[at:to]
        elif kind == 10:
            made[at:at] = made[at:to]
        else:
            made[at:to] = bytes(reversed(made[at:to]))
    return bytes(made)


class Storm(Replay):
    """A replay with many stops and failures, each of whose packets has records of its own."""

    rounds = (10, 20, 40)

    def __init__(self, seed):
        super().__init__(seed)
        self.is_large = self.is_large or self.is_rare(0.01)
        self.shares["round"] *= self.pick(1, 4, 10)
        self.shares["bad commit"] = self.pick(2, 10, 30)
        self.shares["lost request"] = self.pick(1, 5, 10)
        if "armshelf" in self.shares:
            self.shares["bad write"] = self.pick(2, 10, 30)

    def settings(self):
        """Most often there is room, and files are closed often, in streams of their own."""
        lines = super().settings()
        if self.is_rare(0.7):
            lines += [("reserve", self.pick(4_000, 30_000)), ("limit records", self.pick(1, 2, 3))]
        return lines + [("rule", b"rule * %d %d" % (each, each + 3)) for each in (1, 2) if self.is_rare(0.3)]

    def add(self, *line):
        """Plays a line, and leaves it out where the world refuses it."""
        try:
            self.world.run(line[0], line[1:])
        except Stopped:
            pass
        except Refused:
            return True
        self.lines.append(line)
        return True

    def line(self, form):
        made = {"bad commit": self.bad_commit, "bad write": self.bad_write, "lost request": self.lost_request}
        if form not in made:
            return super().line(form)
        for gateway in range(1, self.gateways + 1):
            self.add("open", gateway)
        return made[form]()

    def told(self):
        """Packets for the gateways: each has something to commit where it takes one."""
        for node in range(1, min(self.nodes, 3) + 1):
            self.submit(node)
            self.add("tick", node)
        return self.add(*self.pick(("flow",), ("flow",), ("mix", self.random.randrange(2**64))))

    def one_of(self, is_fit):
        """The number of a gateway that is fit, or else of any."""
        fit = [each.number for each in self.world.gateways if is_fit(each)]
        return self.pick(*fit) if fit else self.number(self.gateways)

    def bad_commit(self):
        """A call of a commit stops or fails, and most often a call of the opening again behind it."""
        self.told()
        gateway = self.one_of(lambda each: each.state == "broken" or each.firm < len(each.history))
        for _ in range(self.pick(1, 2, 2, 3)):
            call = 1 if self.world.gateways[gateway - 1].state == "broken" else self.number(4)
            self.add(*self.pick(("fail", gateway, call), ("arm", gateway, call, self.pick(*MODES))))
            if "bad write" in self.shares and self.is_rare(0.2):
                self.bad_write()
            self.meets(gateway)
        return self.is_rare(0.3) or self.add("open", gateway)

    def meets(self, gateway):
        """A line that may call the area of a gateway: a message for it does so where it is broken."""
        there = [number for number, each in enumerate(self.world.messages, 1) if each.receiver == ("g", gateway)][-20:]
        lines = [("commit", gateway), ("commit", gateway), ("mark", gateway), ("close", gateway), ("flow",)]
        lines += [("deliver", self.pick(*there))] * 3 if there else []
        return self.add(*self.pick(*lines))

    def left(self, gateway):
        """How many calls of its shelf the next write of a gateway makes."""
        items, sealed = files.items(gateway.history[: gateway.firm]), shelf.sealed_up_to(gateway.files)
        return sum(place >= (gateway.taken or 0) for place, _ in shelf.calls(items, sealed, self.world.settings, 0))

    def bad_write(self):
        """A call of a write, or the one behind it, stops or fails, and then perhaps one of the next write."""
        self.told()
        gateway = self.one_of(lambda each: each.state == "runs" and each.firm < len(each.history))
        self.add("commit", gateway)
        gateway = self.one_of(lambda each: each.state != "down" and self.left(each))
        for _ in range(self.pick(1, 2, 3)):
            call = self.number(self.left(self.world.gateways[gateway - 1]) + 1)
            self.add(*self.pick(("failshelf", gateway, call), ("armshelf", gateway, call, self.pick(*MODES))))
            self.add("write", gateway)
            if not self.is_rare(0.2):
                self.add("open", gateway)
        return True

    def lost_request(self):
        """A node is sent elsewhere while its packet, or the answer to it, is on its way."""
        self.told()
        gateway = self.one_of(lambda each: each.waiting)
        if self.is_rare(0.5):
            self.add("commit", gateway)
        self.add("redirect", gateway, 63, None)
        return self.wild_round()

    def case(self):
        """Its text, and what a replay of it should write and end with: most often what the world wrote that was played
        while it was made, else None."""
        if self.is_rare(0.2):
            return self.script(), None
        lines = [self.spelled(line) for line in self.play()]
        ended = "".join(line + "\n" for line in self.world.written).encode(), 0, b""
        return b"\n".join((*lines, b"")), None if self.is_refused else ended

    def records(self, format_):
        name = self.packets.to_bytes(3, "big")
        return tuple(SIGN + name + bytes([at]) + each[6:] for at, each in enumerate(super().records(format_)))


class Mangled(Feed):
    """A feed of mangled datagrams."""

    def body(self):
        """Elements that are mangled in the packet, in the list, or between them."""
        elements, kind = self.elements(), self.pick("value", "octets", "none")
        if kind == "value":
            place = self.random.randrange(len(elements))
            name, value = elements[place]
            elements[place] = name, mangled(self.random, value, self.packet()) if name > 127 else value
        octets = b"".join(wire.element(name, value[:65_535]) for name, value in elements)
        return mangled(self.random, octets, octets) if kind == "octets" else octets

    def record(self, format_):
        value = super().record(format_)
        return value if self.is_rare(0.8) else mangled(self.random, value, b"\x30\x80\0\0")

    def mangled_datagram(self):
        """A datagram whose header fits what is mangled behind it, or that is mangled itself."""
        if self.is_rare(0.5):
            octets = self.body()[:65_501]
            kind = self.pick(*[wire.TRANSFER_REQUEST] * 6, 1, 2, 4, 6, 7, 241)
            return bytes([0x4E, kind]) + len(octets).to_bytes(2, "big") + self.number().to_bytes(2, "big") + octets
        octets = mangled(self.random, self.datagram(), self.datagram())[:65_507]
        if len(octets) >= 6 and self.is_rare(0.3):
            octets = octets[:2] + (len(octets) - 6).to_bytes(2, "big") + octets[4:]
        return octets or b"\0"

    def line(self):
        if self.is_rare(0.1):
            return super().line()
        net, node = self.pick(*self.senders)
        return f"in 10.0.{net}.{node}:{self.pick(40001, 40002)} {self.mangled_datagram().hex().upper()}"

    def script(self):
        """The text of so many lines, of which no one is refused."""
        lines = [f"reserve {self.pick(1_000, 5_000, 20_000)}", f"limit records {self.pick(1, 3, 1_000)}"]
        lines += [f"at {self.moment}", *(self.line() for _ in range(DATAGRAMS)), "end", ""]
        return "\n".join(lines).encode()


class Text:
    """Octets that a command reads, hardly any of which it takes."""

    def __init__(self, number):
        self.random = random.Random(number)
        self.number = number

    def noise(self):
        """Octets of one alphabet."""
        alphabet = self.random.choice((bytes(range(256)), bytes(range(32, 127)) + b"\n", b" \n\r\t#0a.:", b"\xff\0\n"))
        return bytes(self.random.choices(alphabet, k=self.random.choice(LENGTHS)))

    def words(self):
        """Lines of words that lines may have, in any order."""
        lines = []
        for _ in range(self.random.choice((1, 2, 3, 9))):
            values = self.random.choices(VALUES, k=self.random.randrange(5))
            lines.append(" ".join((self.random.choice(WORDS), *values)))
        return "\n".join((*lines, "end", "")[: self.random.choice((-1, -2, None, None, None))]).encode()

    def script(self, make):
        """A script that is mangled, in its lines or in its octets, or not at all."""
        text = make(self.number)
        if self.random.random() < 0.4:
            lines = text.split(b"\n")
            place = self.random.randrange(len(lines))
            lines[place] = mangled(self.random, lines[place], self.random.choice(lines))
            return b"\n".join(lines)
        return text if self.random.random() < 0.1 else mangled(self.random, text, text)

    def file(self):
        """A CDR file that is mangled, and mostly says how long it is."""
        octets = mangled(self.random, show_files.file(self.number), show_files.file(self.number + 1))
        if self.random.random() < 0.3:
            octets = self.random.randbytes(self.random.choice((0, 51, 52, 53, 56, 80, 1_000)))
        return len(octets).to_bytes(4, "big") + octets[4:] if self.random.random() < 0.7 else octets

    def settings(self):
        """The settings of what serves."""
        return mangled(self.random, serve_cases.Maker(self.number).text(0.3), self.noise())

    def case(self):
        """A command and what it reads."""
        command = self.random.choice(COMMANDS)
        if self.random.random() < 0.25:
            return command, self.noise()
        if command == "show":
            return command, self.file()
        if self.random.random() < 0.2:
            return command, self.words()
        if command == "serve":
            return command, self.settings()
        make = Feed if command == "feed" else Storm
        return command, self.script(lambda number: make(number).script())


def is_small(command, text):
    """Whether what a text reserves is little enough to be tried."""
    try:
        settings = files.Settings(script.read(text, command))
    except script.Fault:
        return True
    return settings.reserve * settings.gateways <= MOST_RESERVED


def text_case(number):
    """The command and the octets of a number."""
    command, text = Text(number).case()
    return (command, text) if command == "show" or is_small(command, text) else text_case(number + 2**32)
