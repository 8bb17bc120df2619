"""Random replay scripts: nodes and gateways with losses, repeats, delays, redirections, restarts, stops and failures,
in journals that are often too small; now and then a line that the grammar or the world refuses. The world is played
while its script is made, so that all other lines are allowed.

    python3 replay_scripts.py SEED COUNT FOLDER
"""

import random
import sys

import script
import wire
from feed_scripts import BAD_VALUES, FORMATS, IDENTIFIERS, LATER, VALUES, VERSIONS, write
from world import LAST_START, Refused, Stopped, World

# How often a line of each form is made; a script has factors of its own.
SHARES = {"tick": 22, "flow": 8, "mix": 6, "deliver": 14, "submit": 8, "at": 4, "halt": 0.8, "start": 3}
SHARES |= {"commit": 14, "write": 1, "mark": 5, "close": 1, "redirect": 4, "stop": 0.7, "open": 6, "arm": 3, "fail": 3}
SHARES |= {"armshelf": 2, "failshelf": 2, "settle": 0.7, "blank": 1, "round": 6}
MODES = ("old", "new", "rot")
MOMENTS = (0, 0, 1, 86_399, 1_709_164_800, script.LAST_MOMENT - 3_700)
GREATEST = 2**64 - 1
REFUSED = """frob|Flow| |\tflow| #|flow\x7f|in 10.0.1.1:1 00|mark\xe9|armshelf 1 1|failshelf 1 0|renew 1
profile 0|store 1 999|nodestop|nodeopen 1|nodearm 1 1 old|nodefail 1 1|standby 1|ship 1|takeover x|arm 1 0 rot
arm 1 1 rot x|reserve 500|limit foo 1|rule A0 1|gateways|nodes 1|offset -00:00|flow 1|tick|tick 1 1
submit 1 1 0600|redirect 1|redirect 1 59 1 1|mix|settle 1|end 1|arm 1 1|fail 1|at|at 1 2|deliver|commit|mark
close|write 1 1|stop|open|halt|start 1 1|tick 01|tick -1|tick +1|tick x|mix 18446744073709551616|redirect 1 58
redirect 1 64|redirect 1 59 x|redirect x 58|arm 1 0 old|arm 1 1 Old|arm 1 old 1|fail 1 0|at 4102444800
submit 1 256 0600 00|submit 1 256 06 0|submit 1 1 600 00|submit 1 1 060G 00|submit 1 1 0600 0
submit 1 1 0600 00 0G|submit x 1 0600 0|deliver 1.0|commit 1_0"""
REFUSED_FIRST = """reserve 99|reserve 268435457|limit records 0|limit records 1000001|limit size 0
limit size 1000000001|limit open 0|limit open 1000001|limit foo 1|limit foo x|limit records|offset 01:00
offset +16:00|offset +15:60|offset +1:00|gateways 0|gateways 9|nodes 0|nodes 17|rule A0FF 1 5|rule A0 1
rule A0 1 16|rule * 256 1|rule A0 01 1|rule 1F 1 1|rule ** * 1"""


class Replay:
    """A script in the making, and the world so far; it has one of so many rounds."""

    rounds = (5, 20, 50, 100, 200)

    def __init__(self, seed):
        self.random = random.Random(seed)
        self.shares = {form: share * self.pick(0.2, 1, 1, 1, 4) for form, share in SHARES.items()}
        self.is_large = self.is_rare(0.004)
        self.versions = self.pick(*[VERSIONS] * 7, LATER)
        self.lines = self.settings()
        self.world = World(self.lines)
        self.gateways, self.nodes = len(self.world.gateways), len(self.world.nodes)
        self.packets = 0

    def pick(self, *choices):
        return self.random.choice(choices)

    def is_rare(self, share):
        return self.random.random() < share

    def number(self, count):
        """A gateway, node or message that there is."""
        return self.random.randint(1, count)

    # Settings.

    def settings(self):
        """Lines of settings, of which a later one replaces an earlier one, and blank ones among them."""
        small = self.pick(100, 130, 200, self.random.randint(100, 1_200), *[self.random.randint(200, 3_000)] * 3)
        lines = [("reserve", 3_000_000 if self.is_large else small if self.is_rare(0.4) else 30_000)]
        if self.versions is LATER:
            lines.append(("profile", self.pick(1, 2, 2)))
        lines += [self.setting() for _ in range(self.pick(0, 0, 1, 2, 3, 6))]
        lines.append(("gateways", self.pick(1, *[2] * 9, *[3] * 7, 4, 4, 8)))
        lines.append(("nodes", self.pick(*[1] * 10, *[2] * 6, 3, 3, 4, 16)))
        if self.is_rare(0.1):
            self.random.shuffle(lines)
        return lines

    def setting(self):
        roll = self.random.random()
        if roll < 0.2:
            return "limit records", self.pick(1, 2, 3, 5)
        if roll < 0.35:
            return "limit size", self.pick(1, 52, 61, 62, 70, 71, 100, 150, 1_000_000_000)
        if roll < 0.5:
            return "limit open", self.pick(1, 1, 10, 60, 1_000_000)
        if roll < 0.55:
            return "offset", self.random.randint(-959, 959)
        if roll < 0.6:
            return "profile", self.pick(1, 2, 2)
        if roll < 0.7:
            return self.pick(("blank",), ("gateways", 3), ("nodes", 2), ("reserve", 900))
        tag, format_ = self.pick("*", "*", *IDENTIFIERS), self.pick("*", "*", *FORMATS)
        return "rule", f"rule {tag} {format_} {self.random.randint(0, 15)}".encode()

    # Lines.

    def add(self, *line):
        """Plays a line; of those that are refused few are kept, each the last one. Whether more may follow."""
        form, *values = line
        try:
            self.world.run(form, values)
        except Stopped:
            pass
        except Refused:
            if not self.is_rare(0.003):
                return True
            self.lines.append(line)
            return False
        self.lines.append(line)
        return True

    def records(self, format_):
        if self.is_rare(0.003):
            return tuple(bytes([0x80, 1, each % 256]) for each in range(self.pick(255, 256)))
        if self.is_rare(0.001):
            length = self.pick(65_486, 65_487)
            return (b"\x80\x82" + length.to_bytes(2, "big") + bytes(length),)
        records = [bytes([0x85, 2, self.packets % 256, each]) for each in range(self.pick(1, 1, 1, 2, 3))]
        if self.is_rare(0.3):
            records.append(bytes.fromhex(self.pick(*VALUES)))
        if self.is_rare(0.3) if format_ != 1 else self.is_rare(0.03):
            records.insert(0, bytes.fromhex(self.pick(*BAD_VALUES)) or b"\0")
        return tuple(records)

    def submit(self, node):
        self.packets += 1
        format_ = self.pick(*FORMATS)
        return self.add("submit", node, format_, self.pick(*self.versions), self.records(format_))

    def deliver(self, waits):
        """A message that waits, a request of old, or any."""
        messages = self.world.messages
        old = [number for number, each in enumerate(messages, 1) if each.kind() == wire.TRANSFER_REQUEST]
        choices = [each for each in (waits, waits, waits, old, range(1, len(messages) + 1)) if each]
        return not choices or self.add("deliver", self.pick(*self.pick(*choices)))

    def line(self, form):
        """Adds a line of a form, with values that the world allows most often."""
        gateway, node, waits = self.number(self.gateways), self.number(self.nodes), self.world.waits()
        if form == "submit":
            return all(self.submit(node) for _ in range(70 if self.is_rare(0.005) else self.pick(1, 1, 1, 2, 5)))
        if form == "round":
            return self.wild_round()
        if form in ("flow", "settle"):
            return self.add(form)
        if form == "blank":
            return self.add(form)
        if form == "mix":
            return self.add(form, self.pick(self.random.randrange(20), self.random.randrange(2**64)))
        if form == "at":
            later = self.world.moment + self.pick(0, 1, 9, 10, 60, 3_599, 3_600, 86_400)
            return self.add(form, min(later, script.LAST_MOMENT))
        if form == "deliver":
            return self.deliver(waits)
        if form == "redirect":
            return self.add(form, gateway, self.random.randint(59, 63), self.pick(None, self.number(self.gateways)))
        if form in ("armshelf", "failshelf"):
            call = self.pick(1, 2, 3, 4, 5, 6, 7, self.random.randint(1, 40))
            return self.add(form, gateway, call, *[self.pick(*MODES)] * (form == "armshelf"))
        if form in ("arm", "fail"):
            broken = [each.number for each in self.world.gateways if each.state == "broken"]
            if broken and self.is_rare(0.5):
                return self.add(form, broken[0], 1, *[self.pick(*MODES)] * (form == "arm"))
            call = self.pick(1, 2, 3, 4, 4, 5, self.random.randint(1, 12), self.pick(8, GREATEST))
            return self.add(form, gateway, call, *[self.pick(*MODES)] * (form == "arm"))
        if form == "open":
            gateway = self.pick(*[each.number for each in self.world.gateways if each.state == "down"] or [gateway])
        if form == "start":
            node = self.pick(*[place for place, each in enumerate(self.world.nodes, 1) if not each.runs] or [node])
        return self.add(form, node if form in ("tick", "halt", "start") else gateway)

    def wild_round(self):
        """Ticks, messages, commits and their answers, most of which arrive."""
        lines = [("tick", node) for node in range(1, self.nodes + 1)]
        lines += [self.pick(("flow",), ("mix", self.random.randrange(2**64)))]
        lines += [("commit", gateway) for gateway in range(1, self.gateways + 1) if not self.is_rare(0.1)]
        lines += [self.pick(("flow",), ("flow",), ("mix", self.random.randrange(2**64)))]
        return all(self.add(*line) for line in lines)

    def round(self):
        return self.line(self.random.choices(list(self.shares), list(self.shares.values()))[0])

    def paths(self):
        """Rounds that make the nodes known to all gateways."""
        for _ in range(3):
            for line in [("tick", node) for node in range(1, self.nodes + 1)] + [("flow",)]:
                self.add(*line)
            for gateway in range(1, self.gateways + 1):
                self.add("commit", gateway)

    def restarts(self):
        """As many starts of a node as there may be, or one less."""
        node = self.number(self.nodes)
        for _ in range(LAST_START - self.world.nodes[node - 1].counter - self.pick(0, 1)):
            self.add("halt", node)
            self.add("start", node)
            if self.is_rare(0.02):
                self.paths()
        if self.is_rare(0.3):
            self.add("halt", node)
            self.try_out("start", node)

    def full(self):
        """A batch without room for another request, before which it is committed."""
        node = self.number(self.nodes)
        self.paths()
        gateway = 1 + self.world.nodes[node - 1].favourite
        for _ in range(13):
            self.packets += 1
            self.add("submit", node, 0, 0x0600, (bytes([self.packets]) * self.random.randint(64_900, 65_490),))
        self.add("tick", node)
        if self.is_rare(0.7):
            call, mode = self.number(4), self.pick(*MODES)
            self.add(*self.pick(("fail", gateway, call), ("arm", gateway, call, mode)))
        for line in self.pick([("flow",)], [("mix", self.random.randrange(2**64))], [("flow",), ("mark", gateway)]):
            self.add(*line)

    def refusal(self):
        """Adds a line that the world may refuse."""
        gateway = self.pick(1, 1, 1, self.gateways + 1, 0, GREATEST)
        node = self.pick(1, 1, 1, self.nodes + 1, 0, GREATEST)
        form = self.pick("stop", "open", "mark", "close", "commit", "write", "arm", "fail", "redirect")
        more = {"arm": (1, "old"), "fail": (1,), "redirect": (59, self.pick(None, gateway, self.gateways + 1))}
        lines = [(form, gateway, *more.get(form, ())), (self.pick("tick", "halt", "start"), node)]
        lines += [("submit", node, 1, 0x0600, (b"\x80\1\5",)), ("at", max(self.world.moment - 1, 0))]
        lines += [("deliver", self.pick(0, len(self.world.messages) + 1, GREATEST))]
        self.try_out(*self.pick(*lines))

    def try_out(self, *line):
        """Adds a line whatever the world says of it."""
        try:
            self.world.run(line[0], line[1:])
        except Stopped:
            pass
        except Refused:
            self.is_refused = True
        self.lines.append(line)

    def play(self):
        """Plays so many lines and the end; answers the lines."""
        self.is_refused = False
        self.add("at", self.pick(*MOMENTS))
        if not self.is_rare(0.1):
            self.paths()
        if self.is_rare(0.01):
            self.restarts()
        if self.is_large:
            self.full()
        for _ in range(5 if self.is_large else self.pick(*self.rounds)):
            if not self.round():
                break
        for _ in range(self.pick(*[0] * 9, 1, 1, 3)):
            if not self.is_refused:
                self.refusal()
        if self.is_rare(0.3):
            self.add("settle")
        self.add("end")
        return self.lines

    # The text.

    def spelled(self, line):
        """The octets of a line, in one of its spellings."""
        if line[0] == "blank":
            return self.pick(b"", b"# a comment", b"#\t\xff frob")
        text = script.printed(line)
        if self.is_rare(0.01):
            text = text.replace(b" ", b"  ") + b" "
        if line[0] == "submit" and self.is_rare(0.1):
            text = text.lower()
        return b" " + text if self.is_rare(0.003) else text

    def script(self):
        """The text of the lines; now and then with a line that is refused, without an end, or with more behind it."""
        lines = [self.spelled(line) for line in self.play()]
        if self.is_rare(0.06):
            refused = self.pick(*REFUSED.replace("\n", "|").split("|")).encode("latin-1")
            lines.insert(self.random.randrange(len(lines) + 1), refused)
        if self.is_rare(0.03):
            refused = self.pick(*REFUSED_FIRST.replace("\n", "|").split("|")).encode()
            lines.insert(self.random.randrange(4), refused)
        if self.is_rare(0.003):
            lines[:0] = [b"rule * * %d" % (each % 16) for each in range(self.pick(script.MOST_RULES, 257))]
        if self.is_rare(0.01):
            lines.pop()
        if self.is_rare(0.05):
            lines.append(self.pick(b"", b"# behind", b"flow", b"end", b"frob", b"nodes 1", b"at 1 2", b"armshelf"))
        ending = b"\r\n" if self.is_rare(0.05) else b"\n"
        return ending.join(lines) + (b"" if self.is_rare(0.05) else ending)


if __name__ == "__main__":
    write(lambda each: Replay(each).script(), int(sys.argv[1]), int(sys.argv[2]), sys.argv[3])
