"""Reports of feeds and of replays, and the CDR files in them."""

import re
import struct
from typing import NamedTuple

import words  # noqa: F401  (which puts the models' folder on the path)
import script

FIXED = 50
EXTENDED = 7


class Header(NamedTuple):
    """What a CDR file's header says (3GPP TS 32.297, clause 6.1)."""

    length: int
    header_length: int
    high: int
    low: int
    opened: int
    appended: int
    count: int
    sequence: int
    reason: int
    address: bytes
    lost: int


class Record(NamedTuple):
    """A CDR of a file: its place there, what its header says, and its octets."""

    place: int
    release: str
    version: int
    format: int
    octets: bytes


class File(NamedTuple):
    """A CDR file of a report: its gateway, its name and its octets."""

    gateway: int
    name: str
    octets: bytes

    @property
    def header(self):
        """The header's fields."""
        if len(self.octets) < FIXED + 2:
            raise words.Ended(f"{self.name}: this is no CDR file")
        head = struct.unpack(">IIBBIIIIB20sB", self.octets[:48])
        return Header(*head)

    @property
    def is_extended(self):
        """Whether releases above 9 have an octet more: one stands behind the private extension."""
        place = FIXED
        for _ in range(2):
            place += int.from_bytes(self.octets[place - 2 : place], "big") + 2
        return place - 2 < self.header.header_length

    def records(self):
        """The records, one after the other."""
        at, octets, is_extended = self.header.header_length, self.octets, self.is_extended
        while at + 4 <= len(octets):
            length, kind, format_ = struct.unpack(">HBB", octets[at : at + 4])
            head = 4 + (is_extended and kind >> 5 == EXTENDED)
            if at + head + length > len(octets):
                raise words.Ended(f"{self.name}: the record at octet {at} is cut")
            release = "+".join(map(str, [kind >> 5, *octets[at + 4 : at + head]]))
            yield Record(at, release, kind & 31, format_ >> 5, octets[at + head : at + head + length])
            at += head + length
        if at != len(octets):
            raise words.Ended(f"{self.name}: octets behind the last record")


def stamp(value):
    """A timestamp of a file in words: month, day, hour and minute, and the offset from UTC."""
    sign = "+" if value >> 11 & 1 else "-"
    day = f"{value >> 28:02}-{value >> 23 & 31:02} {value >> 18 & 31:02}:{value >> 12 & 63:02}"
    return f"{day} {sign}{value >> 6 & 31:02}:{value & 63:02}"


LINE = re.compile(
    r"- \w+|(?:[0-9A-F]{2})+|(?:fault|stopped|down|expired|packet|refused|resolved|done|held|stranded|records|packets) \S+"
    r"|m \d+ \S+ \S+ [0-9A-F]+|drop \d+ \w+|file \d+ \S+ [0-9A-F]+|(?:gateway|node) \d+ .*"
)


def check(path, lines):
    """Each line is one of a report."""
    for place, line in enumerate(lines, 1):
        if not LINE.fullmatch(line):
            raise words.Ended(f"{path}:{place}: no line of a report: {line[:60]}")


def file_of(line):
    """The file of a line `file G NAME HEX` of a report."""
    parts = line.split()
    try:
        _, gateway, name, octets = parts
        if "/" in name:
            raise ValueError(name)
        return File(int(gateway), name, bytes.fromhex(octets))
    except ValueError:
        raise words.Ended(f"no line of a file: {line[:60]}") from None


def files_of(report):
    """The files of a report."""
    return [file_of(line) for line in report if line.startswith("file ")]


def host(address):
    """An IPv4 address of 32 bits as text."""
    return ".".join(str(address >> shift & 255) for shift in (24, 16, 8, 0))


def number(text):
    """The 32 bits of an IPv4 address as text."""
    found = 0
    for part in text.split("."):
        found = found << 8 | int(part)
    return found


class Feed:
    """A feed's script with its report."""

    def __init__(self, path, report):
        try:
            self.lines = script.read(words.octets_of(path), "feed")
        except script.Fault as fault:
            raise words.Ended(f"{path}:{fault.place}: {fault.kind}; tools/check says more") from None
        self.report = words.text_of(report)
        self.path, self.report_path = path, report

    def datagrams(self):
        """For each datagram its line, moment, sender, octets, and its line of the report."""
        moment, at = 0, 0
        for place, (form, *values) in enumerate(self.lines, 1):
            if form == "at":
                moment = values[0]
            if form != "in":
                continue
            if at >= len(self.report) or self.report[at].startswith(("file ", "gateway ")):
                raise words.Ended(f"{self.report_path}: not the report of {self.path}: too few answers")
            line, at = self.report[at], at + 1
            if not line.startswith("- "):
                try:
                    bytes.fromhex(line)
                except ValueError:
                    raise words.Ended(f"{self.report_path}: not the report of {self.path}, line {at}") from None
            (ip, port), octets = values
            yield place, moment, (host(ip), port), octets, line
        if at >= len(self.report) or not self.report[at].startswith(("file ", "gateway ")):
            raise words.Ended(f"{self.report_path}: not the report of {self.path}: too many answers, or it is cut")

    def files(self):
        """The files of the report."""
        return files_of(self.report)

    def gateway_lines(self):
        """The lines that count."""
        return [line for line in self.report if line.startswith("gateway ")]
