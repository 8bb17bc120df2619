"""Random cases of `serve`: words, settings, what stands in the journal's file and in the folder, and datagrams; most of
them whole, some broken somewhere.
"""

import random
from typing import NamedTuple, Optional

import feed_scripts
import files
import gateway
import journal
import script
import serve
import wire
from gateway import Entry

SERVER, ANYWHERE = "127.0.0.1", 2_130_706_433
REFUSED = """frob|reserve 500|at 5|in 10.0.1.1:1 00|mark|close|renew 1000|gateways 2|nodes 1|settle|commit 1|tick 1
submit 1 1 0600 00|arm 1 1 old|store 1 999|standby 1|renew|flow|halt 1|settings|begin|limits records 1|rules * * 1
limit|limit records|limit records 0|limit records 1000001|limit records 01|limit records 1 1|limit size 0|limit open x
limit size 1000000001|limit open 0|limit open 1000001|limit foo 1|limit foo x|limit Records 1|Limit records 1|limit 5
offset|offset 01:00|offset +16:00|offset +15:60|offset +1:00|offset +01:00 x|offset -99:00|offset +0100|offset +01:0a
profile|profile 0|profile 3|profile x|profile 01|profile 1 2|rule|rule *|rule A0 1|rule A0 1 16|rule A0 1 016
rule * 256 1|rule * 01 1|rule * +1 1|rule 0 1 1|rule G0 1 1|rule 1F1F 1 1|rule 1F8100 1 1|rule 1FFFFFFFFF7F 1 1
rule A0FF 1 5|rule A0 01 1|rule 1F 1 1|rule ** * 1|rule A0 1 5 5|rule a0 * 1 |rule * * -1|rule A 1 1|rule * * 1\x7f
end|end x|end 1| end|end | |  | #|\tlimit open 1|limit\topen 1|limit open 1\r|#\xff\t|\xff|limit open 1\xe9|END|-
rule 1F8080808080 1 1|limit open 1 # more|end # more|\0|limit open 1\0|offset -00:00|offset +15:59|limit  open  1"""
# Words between `serve` and the paths of the runs; those that have six are refused for their number.
WORDS = """127.0.0.1 1 1|127.0.0.1 1 1 100 f|127.0.0.1|127.0.0.1 1 1 100 f d||127.0.0.01 1 1 100|127.0.0 1 1 100
127.0.0.256 1 1 100|127.0.0.1. 1 1 100|.127.0.0.1 1 1 100|127..0.1 1 1 100|localhost 1 1 100|127.0.0.1:1 1 1 100
127.0.0.1 65536 1 100|127.0.0.1 01 1 100|127.0.0.1 x 1 100|127.0.0.1 +1 1 100|127.0.0.1 1 0 100|127.0.0.1 1 01 100
127.0.0.1 0 1099511627777 100|127.0.0.1 1 1 99|127.0.0.1 1 1 268435457|127.0.0.1 1 1 0100|127.0.0.1 1 1 x
-127.0.0.1 1 1 100|127.0.0.1 1 1 -100|127.0.0.1 1 -1 100|::1 1 1 100|127.0.0.1 1 1 18446744073709551716
127.0.0.1 1 1.0 100|- 1 1 100|127.0.0.1 - 1 100|127.0.0.1 1 1 1e3|0x7f.0.0.1 1 1 100|127.0.0.1 1 36893488147419103233 9
127.0.0.1 0 1 100|127.0.0.9 0 2 100|127.0.0.1 0 1 1000000|127.0.0.0x1 1 1 100|127.0.0.1/8 1 1 100|127,0,0,1 1 1 100"""


class Case(NamedTuple):
    """A case: the words of the program but for the paths, its standard input, the journal's file and the folder that it
    finds, and the datagrams that it hears: pairs of a sender's address and place among its sockets, and octets."""

    words: tuple
    text: bytes
    file: Optional[bytes]
    folder: Optional[dict]
    heard: tuple = ()


class Maker:
    """Draws a case by a number."""

    def __init__(self, number):
        self.random = random.Random(number)
        self.traffic = feed_scripts.Feed(number)
        self.length = self.pick(100, 130, 163, 234, 300, *[self.random.randint(100, 2_000)] * 4, *[20_000] * 6)

    def pick(self, *choices):
        return self.random.choice(choices)

    def is_rare(self, share):
        return self.random.random() < share

    # The settings.

    def setting(self):
        """A line of settings."""
        while True:
            line = self.traffic.setting()
            if not line.startswith("reserve"):
                return line

    def text(self, broken):
        """The settings' text, of which such a share is broken."""
        lines = [self.setting() for _ in range(self.pick(0, 0, 1, 2, 3, 6))]
        if self.is_rare(0.02):
            lines += [f"rule * * {count % 16}" for count in range(self.pick(script.MOST_RULES, 257))]
        for _ in range(self.pick(0, 0, 0, 1)):
            lines.insert(self.random.randint(0, len(lines)), self.pick("", "# a comment", "#\t\xff", "  " * 0))
        if not self.is_rare(broken / 8):
            lines.append(self.pick("end", "end", "end", " end", "end "))
        if self.is_rare(broken):
            line = self.pick(*REFUSED.replace("\n", "|").split("|"))
            lines.insert(self.random.randint(0, len(lines)), line)
        if self.is_rare(broken / 4):
            lines.append(self.pick("", "# after", "end", "frob", "limit open 1", "offset +00:00", "mark", "\x7f"))
        ending = "\r\n" if self.is_rare(0.05) else "\n"
        return (ending.join(lines) + ("" if self.is_rare(0.1) else ending)).encode("latin-1")

    def whole_text(self):
        """A settings' text that isn't refused."""
        while True:
            text = self.text(0)
            try:
                script.read(text, "serve")
                return text
            except script.Fault:
                pass

    # The journal's file.

    def served(self):
        """A gateway that has heard some datagrams, and has settled or not; some of its entries were firm together."""
        made = serve.Served(bytes(self.length), ANYWHERE)
        for _ in range(self.pick(0, 1, 5, 15, 30)):
            sender = self.pick(*self.traffic.senders)
            octets = self.traffic.mutated(self.traffic.datagram())
            datagram = serve.Datagram((ANYWHERE + 256 * sender[0] + sender[1], 40_001), octets, self.traffic.moment)
            self.traffic.moment = min(self.traffic.moment + self.pick(0, 1, 60, 3_600), script.LAST_MOMENT)
            made.hear(datagram)
            if self.is_rare(0.03):
                made.settle()
        if self.is_rare(0.8):
            made.commit()
        if self.is_rare(0.4):
            made.settle()
        return made

    def entry(self, history):
        """An entry that may be fit behind a history or not."""
        near = self.pick(*history) if history else Entry(0, "Start")
        node = near.node if near.node is not None else ANYWHERE + 257
        node += self.pick(0, 0, 0, 0, 0, 0, 0, 1)
        numbers = near.numbers or (65_536,)
        last = history[-1].moment if history else 0
        moments = (last, last, last, last + 1, max(last - 1, 0), script.LAST_MOMENT, script.LAST_MOMENT + 1)
        kind = self.pick(*journal.KINDS)
        if kind in ("File", "Hold", "Seal"):
            number = numbers[0] + self.pick(0, 1, 2, -1, 32_768, -32_768, -32_769, 2**62, 2**63 - 65_538)
            numbers = (self.pick(number, number, 32_767, 32_768, 2**63 - 1, 2**63) % 2**64,)
        elif kind in ("Release", "Cancel"):
            held = sorted(key for key in gateway.held(history) if self.is_rare(0.5))
            node = held[0][0] if held else node
            numbers = tuple(number for each, number in held if each == node) or numbers
            numbers = self.pick(numbers, numbers, numbers, numbers + (numbers[0] + 1,), numbers * 2, ())
        elif kind == "Path":
            numbers = ()
        else:
            node, numbers = None, ()
        packet = self.packet() if kind in ("File", "Hold") else None
        who = self.pick(0, 3, 2**32 - 1), self.pick(0, 2**64 - 1)
        return Entry(self.pick(*moments), kind, node, numbers, packet, 40_001, 7, *who)

    def packet(self):
        """A packet, now and then an empty or a faulty one."""
        while True:
            try:
                return wire.packet(self.traffic.packet())
            except ValueError:
                pass

    def likely(self, history, share):
        """An entry that is fit behind a history in such a share of cases, or one that may be."""
        drawn = [self.entry(history) for _ in range(8 if self.is_rare(share) else 1)]
        return next((entry for entry in drawn if journal.is_fit(history, entry, self.length)), drawn[0])

    def crafted(self):
        """An area whose journal has batches more than its gateway wrote, most of them fit or not."""
        made, share = self.served(), self.pick(0, 0.9, 0.97, 0.99)
        made.commit()
        area, gate, history = made.area, made.gate, made.history
        for _ in range(self.pick(1, 2, 3, 10, 25) if share else self.pick(1, 1, 2)):
            batch = []
            for _ in range(self.pick(1, 1, 1, 2)):
                batch.append(self.likely(history, share))
                history = history + batch[-1:]
            gate = journal.append(area, gate, batch)
            if gate >= self.length:
                return self.served().area
        return area

    def spoiled(self, area):
        """An area with some octets changed."""
        octets = bytearray(area)
        end = self.pick(32, 40, 80, 200, len(octets))
        for _ in range(self.pick(1, 1, 1, 3)):
            octet = self.pick(0, 1, 0xA5, 255, self.random.randrange(256))
            octets[self.random.randrange(min(end, len(octets)))] = octet
        return bytes(octets)

    def strange(self):
        """What isn't a journal, or isn't one yet."""
        head = journal.header(self.length, ANYWHERE)
        other = journal.header(self.pick(self.length, self.length + 1), self.pick(ANYWHERE, ANYWHERE + 8, 1))
        rest, noise = bytes(self.length - 32), self.random.randbytes(self.length)
        short = self.random.randrange(self.length)
        return self.pick(
            *(b"", bytes(self.length), bytes(short), b"\0" + noise[:short][:-1], noise[:short], noise + b"\0"),
            *(bytes(self.length + 1), head, noise, b"\0" + noise[1:], b"\xff" + bytes(self.length - 1), other + rest),
            *(bytes([noise[0]]) + head[1:] + noise[32:], head + noise[32:], head + b"\xa5" + rest[1:], head + rest),
        )

    def file(self):
        """What stands in the journal's file."""
        roll = self.random.random()
        if roll < 0.15:
            return None
        if roll < 0.3:
            return self.strange()
        if roll < 0.45:
            return bytes(self.crafted())
        area = bytes(self.served().area)
        return self.spoiled(area) if roll < 0.55 else area

    # The folder.

    def folder(self, text, file):
        """What stands in the folder: nothing, or files that an earlier run sealed."""
        if self.is_rare(0.02):
            return None
        try:
            settings = files.Settings(script.read(text, "serve"))
            history = journal.opened(serve.area_of(file, self.length) or bytes(self.length), ANYWHERE)[1]
        except (script.Fault, journal.NotOurs):
            return {}
        if self.is_rare(0.5):
            return {}
        whole = serve.sealed({}, history[: self.random.randint(0, len(history))], settings, ANYWHERE)
        if self.is_rare(0.3):
            last = {name[:2]: name for name in sorted(whole)}
            whole = {name: whole[name] for name in last.values()}
        return whole

    def words(self, turns):
        return (SERVER, "0", str(turns), str(self.length))

    def settings_case(self):
        """A case without datagrams."""
        text = self.text(0.25)
        file = self.file()
        return Case(self.words(1), text, file, self.folder(text, file))

    def journals_case(self):
        """A case without datagrams, over a journal that most likely its gateway didn't write."""
        self.length = max(self.length, 300)
        text, file = self.whole_text(), bytes(self.crafted())
        file = self.spoiled(file) if self.is_rare(0.2) else file
        return Case(self.words(1), text, file, self.folder(text, file))

    def words_case(self):
        """A case whose words are refused, or most of them."""
        words = self.pick(*WORDS.replace("\n", "|").split("|"))
        return Case(tuple(word for word in words.split(" ") if word), self.text(0.3), None, {})

    # Datagrams.

    def heard(self):
        """Datagrams with their senders: the address and which of its two sockets."""
        sent = []
        for _ in range(self.pick(3, 8, 15, 25, 40)):
            if sent and self.is_rare(0.15):
                sent.append(self.pick(*sent))
                continue
            net, node = self.pick(*self.traffic.senders)
            octets = self.traffic.mutated(self.traffic.datagram())
            sent.append(((ANYWHERE + 256 * net + node, self.pick(0, 1)), b"" if self.is_rare(0.01) else octets))
        if self.is_rare(0.03):
            sent += [((ANYWHERE + 2**16 + node, 0), self.traffic.datagram()) for node in range(70)]
        if self.is_rare(0.02):
            sent.append((sent[0][0], self.largest()))
        return tuple(sent)

    def largest(self):
        """A packet of one record in the largest datagram, or one that says one octet more."""
        record = b"\x04\x82\xff\xce" + bytes(65_486)
        value = wire.packet_value(1, 0x600, [record])
        return wire.transfer_request(self.random.randrange(65_536), self.pick(1, 2), value)

    def datagrams_case(self):
        """A case with datagrams, mostly in a journal that is new."""
        if self.is_rare(0.3):
            self.length = self.pick(200_000, 16_777_216)
        text = self.whole_text()
        file = self.pick(None, None, bytes(self.served().area))
        return Case(self.words(1), text, file, (self.folder(text, file) or {}) if file else {}, self.heard())


    def crowd_case(self):
        """A case with many datagrams of some nodes, in a journal with room for all."""
        self.length = 1_000_000
        text = self.whole_text()
        senders = [ANYWHERE + 256 * net + node for net, node in self.traffic.senders] + [ANYWHERE + 512 + 77]
        heard = [self.traffic.mutated(self.traffic.datagram()) for _ in range(self.pick(20, 40, 80) * len(senders))]
        return Case(self.words(1), text, None, {}, tuple(((self.pick(*senders), 0), each) for each in heard))

    def refused_case(self):
        """A case without datagrams whose settings are broken, most of them."""
        return Case(self.words(1), self.text(1), None, {})


def case(command, number):
    """The case of a number, of a kind."""
    return getattr(Maker(number), f"{command}_case")()
