"""Scripts: the lines of feeds, of replays and of what serves, and the first line that the grammar refuses.

A line is a tuple: its first word, for a setting `limit` the words `limit records` and so on, and then its values in
their order; an empty line or a comment is ("blank",). Addresses are pairs of numbers, octets are bytes.
"""

import re
from typing import NamedTuple, Optional

import ber

MOST_OCTETS = 16_777_216
MOST_RULES = 256
WIDE = 2**64 - 1
LAST_MOMENT = 4_102_444_799
NUMBER = re.compile(rb"0|[1-9][0-9]*")
HEX = re.compile(rb"(?:[0-9A-Fa-f]{2})+")


class Fault(Exception):
    """A line that is refused: its number from 1, and the kind."""

    def __init__(self, place, kind):
        super().__init__(place, kind)
        self.place = place
        self.kind = kind


class Wrong(Exception):
    """A word that isn't in its form and range: `Number` or `Hex`."""


def number(least=0, most=WIDE):
    """Reads decimal digits without sign or leading zero, in a range."""

    def read(word):
        if not NUMBER.fullmatch(word) or not least <= int(word) <= most:
            raise Wrong("Number")
        return int(word)

    return read


def octets(word):
    """Reads one or more octets in hexadecimal, in either case."""
    if not HEX.fullmatch(word):
        raise Wrong("Hex")
    return bytes.fromhex(word.decode())


def version(word):
    """Reads the four hexadecimal digits of a format's version."""
    if len(word) != 4 or not HEX.fullmatch(word):
        raise Wrong("Hex")
    return int(word, 16)


def address(word):
    """Reads an IPv4 address and a port."""
    host, colon, port = word.partition(b":")
    parts = host.split(b".")
    if not colon or len(parts) != 4:
        raise Wrong("Number")
    ip = 0
    for part in parts:
        ip = ip << 8 | number(0, 255)(part)
    return ip, number(0, 65535)(port)


def offset(word):
    """Reads a sign, hours up to 15 and minutes as a number of minutes."""
    found = re.fullmatch(rb"([+-])([0-9]{2}):([0-9]{2})", word)
    if not found or int(found[2]) > 15 or int(found[3]) > 59:
        raise Wrong("Number")
    minutes = int(found[2]) * 60 + int(found[3])
    return -minutes if found[1] == b"-" else minutes


def mode(word):
    """Reads what a stop leaves."""
    if word not in (b"old", b"new", b"rot"):
        raise Wrong("Number")
    return word.decode()


INDEX = number()
LIMITS = {b"records": number(1, 1_000_000), b"size": number(1, 1_000_000_000), b"open": number(1, 1_000_000)}

# The words after the first one, by which they are read; the last reader of a line in MANY stands for one word or more,
# and that of one in MAYBE for none or one.
SETTINGS = {
    b"reserve": [number(100, 268_435_456)],
    b"limit": [None, None],
    b"offset": [offset],
    b"profile": [number(1, 2)],
    b"rule": [None, None, None],
}
COUNTS = {b"gateways": [number(1, 8)], b"nodes": [number(1, 16)]}
BOTH = {b"at": [number(0, LAST_MOMENT)], b"end": []}
FEED = {b"in": [address, octets], b"mark": [], b"close": []}
REPLAY = {
    b"mark": [INDEX],
    b"close": [INDEX],
    b"submit": [INDEX, number(0, 255), version, octets],
    b"tick": [INDEX],
    b"deliver": [INDEX],
    b"flow": [],
    b"mix": [INDEX],
    b"commit": [INDEX],
    b"write": [INDEX],
    b"redirect": [INDEX, number(59, 63), INDEX],
    b"stop": [INDEX],
    b"open": [INDEX],
    b"arm": [INDEX, number(1), mode],
    b"fail": [INDEX, number(1)],
    b"armshelf": [INDEX, number(1), mode],
    b"failshelf": [INDEX, number(1)],
    b"halt": [INDEX],
    b"start": [INDEX],
    b"settle": [],
}
MANY, MAYBE = (b"in", b"submit"), (b"redirect",)
LATER = {
    "feed": (b"renew",),
    "replay": (b"renew", b"store", b"nodestop", b"nodeopen", b"nodearm", b"nodefail", b"standby", b"ship", b"takeover"),
    "serve": (),
}
SERVE = {form: SETTINGS[form] for form in (b"limit", b"offset", b"profile", b"rule")} | {b"end": []}
FORMS = {"feed": {**SETTINGS, **BOTH, **FEED}, "replay": {**SETTINGS, **COUNTS, **BOTH, **REPLAY}, "serve": SERVE}


class Rule(NamedTuple):
    """A rule: a tag or None for any, a format or None for any, and the stream."""

    tag: Optional[ber.Tag]
    format: Optional[int]
    stream: int


def rule(line):
    """Reads a rule from its line; raises Wrong where it has no form of one."""
    words = line.split(b" ")
    words = [word for word in words if word]
    if len(words) != 4 or words[0] != b"rule":
        raise Wrong("Rule")
    try:
        tag = None if words[1] == b"*" else ber.identifier(octets(words[1]))
        format_ = None if words[2] == b"*" else number(0, 255)(words[2])
        return Rule(tag, format_, number(0, 15)(words[3]))
    except (Wrong, ber.Fault):
        raise Wrong("Rule") from None


def _has_arity(first, readers, given):
    if first in MANY:
        return given >= len(readers)
    return given == len(readers) or first in MAYBE and given == len(readers) - 1


def _values(first, readers, words):
    """The values of a line's words, in their order."""
    if first == b"limit":
        if words[0] not in LIMITS:
            raise Wrong("Number")
        return f"limit {words[0].decode()}", LIMITS[words[0]](words[1])
    if first == b"in":
        return "in", address(words[0]), b"".join(map(octets, words[1:]))
    if first == b"submit":
        head = [reader(word) for reader, word in zip(readers[:3], words)]
        return "submit", *head, tuple(map(octets, words[3:]))
    values = [reader(word) for reader, word in zip(readers, words)]
    return first.decode(), *values, *[None] * (len(readers) - len(values))


class _Text:
    """What was read of a text so far: its lines, the number of its rules, and whether a line was met that isn't a
    setting, and `end`."""

    def __init__(self, kind):
        self.kind = kind
        self.lines = []
        self.rules = 0
        self.is_late = False
        self.is_ended = False

    def read(self, line):
        """Takes one line in; raises Wrong with the kind where it is refused."""
        if line == b"" or line.startswith(b"#"):
            self.lines.append(("blank",))
            return
        words = [word for word in line.split(b" ") if word]
        forms, first = FORMS[self.kind], words[0] if words else b""
        if any(not 32 <= octet <= 126 for octet in line) or first not in forms and first not in LATER[self.kind]:
            raise Wrong("Word")
        if first in LATER[self.kind]:
            raise Wrong("NotBuilt")
        if self.is_ended:
            raise Wrong("After")
        is_setting = first in SETTINGS or first in COUNTS
        if is_setting and self.is_late:
            raise Wrong("Late")
        if not _has_arity(first, forms[first], len(words) - 1):
            raise Wrong("Arity")
        if first == b"rule":
            rule(line)
            self.rules += 1
            if self.rules > MOST_RULES:
                raise Wrong("Rule")
            self.lines.append(("rule", line))
        else:
            self.lines.append(_values(first, forms[first], words[1:]))
        self.is_late = self.is_late or not is_setting
        self.is_ended = first == b"end"


def read(text, kind):
    """The lines of a text of the kind "feed", "replay" or "serve"; raises the fault of the first line that is
    refused."""
    parts = text.split(b"\n")
    is_cut = parts[-1] != b""
    if not is_cut:
        parts.pop()
    script, taken = _Text(kind), 0
    for place, line in enumerate(parts, 1):
        has_feed = place < len(parts) or not is_cut
        taken += len(line) + has_feed
        if taken > MOST_OCTETS:
            raise Fault(place, "TooLong")
        if has_feed and line.endswith(b"\r"):
            line = line[:-1]
        try:
            script.read(line)
        except Wrong as wrong:
            raise Fault(place, wrong.args[0]) from None
    if not script.is_ended:
        raise Fault(len(parts) + 1, "NoEnd")
    return script.lines


def printed(line):
    """A line without its line feed."""
    form, *values = line
    if form == "blank":
        return b""
    if form == "rule":
        return values[0]
    if form == "offset":
        sign, minutes = "-" if values[0] < 0 else "+", abs(values[0])
        return f"offset {sign}{minutes // 60:02}:{minutes % 60:02}".encode()
    if form == "in":
        (ip, port), datagram = values
        host = ".".join(str(ip >> shift & 255) for shift in (24, 16, 8, 0))
        return f"in {host}:{port} {datagram.hex().upper()}".encode()
    if form == "submit":
        node, format_, version_, records = values
        words = " ".join(record.hex().upper() for record in records)
        return f"submit {node} {format_} {version_:04X} {words}".encode()
    return " ".join([form] + [str(value) for value in values if value is not None]).encode()


def print_(lines):
    """The text of a script: each line and a line feed, but the last one's where the text would be too long."""
    text = b"".join(printed(line) + b"\n" for line in lines)
    return text if len(text) <= MOST_OCTETS or lines[-1] == ("blank",) else text[:-1]
