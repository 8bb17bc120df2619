"""Random feed scripts: traffic of a few nodes with repeats, tests, releases, cancels, restarts and faults of every
layer, under small limits and journals; now and then a line that the grammar refuses.

    python3 feed_scripts.py SEED COUNT FOLDER
"""

import random
import struct
import sys
from pathlib import Path

import wire
from script import MOST_RULES

VERSIONS = (0x0600, 0x0600, 0x0600, 0x0700, 0x0300, 0x0400, 0x0900, 0x0A00, 0x0B1F, 0xF61F, 0x06FF, 0x0000)
# Mostly releases above 9, which differ in the extension alone.
LATER = (0x0A00, 0x0A00, 0x0B00, 0x0B00, 0x0F00, 0x0B1F, 0x0900)
FORMATS = (1, 1, 1, 1, 1, 1, 0, 2, 6, 7, 8, 255)
IDENTIFIERS = ("A0", "80", "30", "1F22", "BF8122", "9F05", "1F8005", "05", "00", "7F64")
VALUES = ("A003800105", "A003800106", "800105", "30808001050000", "1F220101", "BF8122038001FF", "0500", "A0810080")
BAD_VALUES = ("3080040105", "A003800105FF", "A0", "1F", "1F808080808080", "1F908080800000", "80FF", "8580", "8180", "")
BAD_VALUES += ("A0028001", "80850100000000", "8082", "A080" * 33 + "0000" * 33, "A080" * 31 + "8000" + "0000" * 31)
EXTRA = ((255, b"abc"), (200, b""), (wire.RECOVERY, b"\1"), (2, b"\1"), (wire.COMMAND, b"\2"), (wire.PACKET, b""))
REFUSED = """frob|in 10.0.1.1 00|in 10.0.1.1:1 0|in 10.0.1.256:1 00|in 10.0.1.1:65536 00|in 10.0.1.01:1 00|at 01|at
at -1|at 4102444800|at 5 5|mark 1|end|reserve 500|limit foo 1| |\tmark|limit records 0|reserve 99|reserve 268435457| #
submit 1
offset 01:00|offset +16:00|offset +15:60|rule A0FF 1 5|rule A0 1|rule A0 1 16|rule * 256 1|rule A0 01 1|renew 1000
profile 3|in 10.0.1.1:1|in 10.0.1.1:1 00 0G|mark\x7f|limit size 1000000001|gateways 2|settle|rule 1F 1 1"""
NUMBERS = (0, 1, 2, 3, 7, 0x7FFE, 0x7FFF, 0x8000, 0x8001, 0xFFFE, 0xFFFF)


class Feed:
    """A script in the making."""

    def __init__(self, seed):
        self.random = random.Random(seed)
        self.senders = [(self.random.choice((1, 1, 1, 2)), node) for node in range(1, self.random.randint(2, 5))]
        self.numbers = self.random.sample(NUMBERS, 4) + [self.random.randrange(65536)]
        self.versions = self.random.choice((VERSIONS, VERSIONS, VERSIONS, LATER))
        self.sent = []
        self.moment = self.random.choice((0, 0, 1709164800, 4102444000, 86399))
        self.lines = []

    def pick(self, *choices):
        return self.random.choice(choices)

    def is_rare(self, share):
        return self.random.random() < share

    def setting(self):
        kind = self.pick("reserve", "records", "size", "open", "offset", "profile", "rule", "rule", "rule")
        if kind == "reserve":
            return f"reserve {self.pick(100, 130, 200, 234, 300, 400, 600, 1000, self.random.randint(100, 2000))}"
        if kind == "records":
            return f"limit records {self.pick(1, 2, 3, 5, 1000000)}"
        if kind == "size":
            return f"limit size {self.pick(1, 52, 61, 62, 64, 65, 70, 71, 74, 100, 150, 1000000000)}"
        if kind == "open":
            return f"limit open {self.pick(1, 10, 60, 1000000)}"
        if kind == "profile":
            return f"profile {self.pick(1, 2, 2, 2)}"
        if kind == "offset":
            return f"offset {self.pick('+', '-')}{self.random.randint(0, 15):02}:{self.random.randint(0, 59):02}"
        tag = self.pick("*", "*", *IDENTIFIERS)
        return f"rule {tag} {self.pick('*', '*', *FORMATS)} {self.random.randint(0, 15)}"

    def record(self, format_):
        if format_ != 1:
            return bytes(self.random.randrange(256) for _ in range(self.pick(0, 1, 5, 20)))
        return bytes.fromhex(self.pick(*VALUES) if not self.is_rare(0.06) else self.pick(*BAD_VALUES))

    def packet(self):
        if self.is_rare(0.12):
            return bytes.fromhex(self.pick("", "", "00", "00123456", "0001", "000102", "0001020304", "01010600"))
        format_ = self.pick(*FORMATS)
        records = [self.record(format_) for _ in range(self.pick(1, 1, 1, 2, 3))]
        value = wire.packet_value(format_, self.pick(*self.versions), records)
        return value + b"\0" if self.is_rare(0.02) else value

    def number(self):
        if self.is_rare(0.03):
            return self.random.randrange(65536)
        return self.pick(*self.numbers)

    def listed(self):
        numbers = [self.number() for _ in range(self.pick(0, 1, 1, 1, 2, 3, 4))]
        value = b"".join(struct.pack(">H", number) for number in numbers)
        return value + b"\7" if self.is_rare(0.03) else value

    def elements(self):
        command = self.pick(1, 1, 1, 1, 2, 2, 2, 3, 4, 4) if not self.is_rare(0.03) else self.pick(0, 5, 255)
        elements = [(wire.COMMAND, bytes([command]))]
        if command == 3:
            elements.append((wire.CANCELLED, self.listed()))
        elif command == 4:
            elements.append((wire.RELEASED, self.listed()))
        else:
            elements.append((wire.PACKET, self.packet()))
        if self.is_rare(0.1):
            elements.append(self.pick(*EXTRA))
        if self.is_rare(0.1):
            self.random.shuffle(elements)
        return elements[:1] if self.is_rare(0.02) else elements

    def datagram(self):
        roll = self.random.random()
        if roll < 0.08:
            return wire.echo_response(self.number(), self.pick(0, 1, 1, 2, 3, 255))
        if roll < 0.10:
            return wire.message(self.pick(1, 4, 4, 3, 5, 6, 7, 2, 99), self.number(), (251, b"\1\2\3\4"))
        if roll < 0.12:
            return wire.message(self.pick(241, 6, 7, 1, 2), self.number(), (1, b"\x80"), (253, b"\0\0"), (254, b"\0"))
        return wire.message(wire.TRANSFER_REQUEST, self.number(), *self.elements())

    def mutated(self, datagram):
        """Now and then an octet or a bit is another, or octets are cut off or added."""
        roll, octets = self.random.random(), bytearray(datagram)
        at = self.random.randrange(len(octets))
        if roll < 0.02:
            octets[at] ^= 1 << self.random.randrange(8)
        elif roll < 0.03:
            octets[at] = self.random.randrange(256)
        elif roll < 0.04:
            del octets[at:]
        elif roll < 0.05:
            octets += b"\xff\0"
        elif roll < 0.055:
            octets[0] = self.pick(0x0F, 0x5E, 0x40, 0x41, 0x6E, 0x2E)
        return bytes(octets) or b"\0"

    def spelled(self, octets):
        """Octets as words of hexadecimal."""
        digits = octets.hex() if self.is_rare(0.1) else octets.hex().upper()
        cut = 2 * self.random.randrange(len(octets)) if self.is_rare(0.2) else 0
        return digits[:cut] + " " * self.pick(1, 2) + digits[cut:] if cut else digits

    def line(self):
        roll = self.random.random()
        if roll < 0.05:
            return self.pick("mark", "mark", "close")
        if roll < 0.13:
            self.moment = min(self.moment + self.pick(0, 1, 9, 10, 59, 60, 61, 3600, 86400), 4102444799)
            return f"at {self.moment}"
        if roll < 0.15:
            return self.pick("", "# a comment", "#" + " \t")
        if self.sent and self.is_rare(0.15):
            return self.pick(*self.sent)
        port, node = self.pick(*self.senders)
        line = f"in 10.0.{port}.{node}:{self.pick(40001, 40002, 0)} {self.spelled(self.mutated(self.datagram()))}"
        self.sent.append(line)
        return line

    def crowd(self):
        """More nodes than a gateway knows."""
        for node in range(70):
            datagram = self.pick(wire.echo_response(1, 1), wire.message(wire.TRANSFER_REQUEST, 0, *self.elements()))
            self.lines.append(f"in 10.9.0.{node}:1 {datagram.hex()}")

    def script(self):
        if self.versions is LATER:
            self.lines.append(f"profile {self.pick(1, 2, 2)}")
        for _ in range(self.pick(0, 0, 1, 2, 3, 6)):
            self.lines.append(self.setting())
        if not any(line.startswith("reserve") for line in self.lines):
            self.lines.append(f"reserve {self.pick(3000, 10000, 20000)}")
        if self.is_rare(0.005):
            self.lines += [f"rule * * {count % 16}" for count in range(self.pick(MOST_RULES, MOST_RULES + 1))]
        if self.is_rare(0.02):
            self.crowd()
        if self.moment:
            self.lines.append(f"at {self.moment}")
        for _ in range(self.pick(3, 8, 15, 25, 40)):
            self.lines.append(self.line())
        if self.is_rare(0.08):
            line = self.pick(*REFUSED.replace("\n", "|").split("|"))
            self.lines.insert(self.random.randrange(len(self.lines) + 1), line)
        if not self.is_rare(0.01):
            self.lines.append("end")
        if self.is_rare(0.05):
            self.lines.append(self.pick("", "# after", "mark", "end", "frob", "offset +00:00", "at 1 2"))
        ending = "\r\n" if self.is_rare(0.05) else "\n"
        text = ending.join(self.lines) + ("" if self.is_rare(0.1) else ending)
        return text.encode("latin-1")


def write(make, seed, count, folder):
    """Writes the scripts of so many seeds into a folder."""
    Path(folder).mkdir(parents=True, exist_ok=True)
    for each in range(seed, seed + count):
        Path(folder, f"{each:08}").write_bytes(make(each))


if __name__ == "__main__":
    write(lambda each: Feed(each).script(), int(sys.argv[1]), int(sys.argv[2]), sys.argv[3])
