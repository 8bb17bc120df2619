"""CDR files as a function of a history: which records are filed, how they are divided, and the octets of each file."""

import struct
from datetime import datetime, timedelta
from typing import NamedTuple, Optional

import ber
import script

HEADER, CDR_HEADER = 52, 4
EXTENDED = 7
SIZE, OPEN_TIME, COUNT, MANUAL, CHANGE = 1, 2, 3, 4, 5


class Settings:
    """What the settings of a script say; a later one replaces an earlier one, and rules are added."""

    def __init__(self, lines):
        self.reserve, self.size, self.count, self.open_time, self.offset = 16_777_216, 1_048_576, 1_000, 3_600, 0
        self.gateways = self.nodes = self.profile = 1
        self.rules = []
        names = {"limit records": "count", "limit size": "size", "limit open": "open_time", "reserve": "reserve"}
        names.update({"offset": "offset", "gateways": "gateways", "nodes": "nodes", "profile": "profile"})
        for form, *values in lines:
            if form in names:
                setattr(self, names[form], values[0])
            elif form == "rule":
                self.rules.append(script.rule(values[0]))


class Item(NamedTuple):
    """A record that is filed, or a Tick or Close in its place. The key of a record is its node, epoch and number."""

    mark: Optional[str]
    moment: int
    kind: tuple = ()
    tag: Optional[ber.Tag] = None
    octets: bytes = b""
    key: tuple = ()
    index: int = 0


def cdr_kind(format_, version):
    """Release, version and format of a CDR, from the format and the version of its packet, and how far a release above
    9 is above 10."""
    nibble = version >> 8 & 15
    release = 0 if nibble <= 3 else nibble - 3 if nibble <= 9 else EXTENDED
    return release, min(version & 255, 31), min(format_, 7), max(nibble - 10, 0)


def extension(kind, settings):
    """The octet that profile 2 has more for a release above 9."""
    return bytes([kind[3]]) if settings.profile == 2 and kind[0] == EXTENDED else b""


def is_one_kind(kind, other, settings):
    """Whether records of these kinds may stand in one file."""
    return kind[:3] == other[:3] and extension(kind, settings) == extension(other, settings)


def _records(packet, key, moment):
    kind = cdr_kind(packet.format, packet.version)
    tag = ber.check if packet.format == 1 else lambda record: None
    return [Item(None, moment, kind, tag(each), each, key, index) for index, each in enumerate(packet.records)]


def items(history):
    """The records that are filed and the marks, in their order. A release files what is held at that point."""
    found, epochs, copies = [], {}, {}
    for entry in history:
        epoch = epochs.get(entry.node, 0)
        keys = [(entry.node, epoch, number) for number in entry.numbers]
        if entry.kind == "Path":
            epochs[entry.node] = epoch + 1
        elif entry.kind == "File":
            found += _records(entry.packet, keys[0], entry.moment)
        elif entry.kind == "Hold":
            copies[keys[0]] = entry.packet
        elif entry.kind in ("Release", "Cancel"):
            for key in keys:
                packet = copies.pop(key, None)
                if packet is not None and entry.kind == "Release":
                    found += _records(packet, key, entry.moment)
        elif entry.kind in ("Tick", "Close"):
            found.append(Item(entry.kind, entry.moment))
    return found


def stream_of(item, rules):
    """The stream of a record: that of the first rule that matches, else 0."""
    for rule in rules:
        is_tag = rule.tag is None or rule.tag == item.tag
        if is_tag and (rule.format is None or min(rule.format, 7) == item.kind[2]):
            return rule.stream
    return 0


def header_length(run, settings):
    """The octets of a file's header: both its releases are that of the records."""
    return HEADER + 2 * len(extension(run[0].kind, settings))


def length_of(run, settings):
    """The octets of a file of these records."""
    more = len(extension(run[0].kind, settings))
    return header_length(run, settings) + sum(CDR_HEADER + more + len(item.octets) for item in run)


def _reason(run, following, settings):
    """Why a run ends where it stands, with the item that follows it or None; None where it goes on."""
    if length_of(run, settings) >= settings.size:
        return SIZE
    if len(run) >= settings.count:
        return COUNT
    if following is None:
        return None
    if following.mark is None:
        return None if is_one_kind(following.kind, run[-1].kind, settings) else CHANGE
    if following.mark == "Tick":
        return OPEN_TIME if following.moment - run[0].moment >= settings.open_time else None
    return MANUAL


def division(listed, settings):
    """The runs of one stream's records, with the marks among them: pairs of the records and the reason, which is None
    where the last run is still open."""
    runs, run = [], []
    for at, item in enumerate(listed):
        run = run + [item] if item.mark is None else run
        reason = _reason(run, next(iter(listed[at + 1 :]), None), settings) if run else None
        if reason is not None:
            runs.append((run, reason))
            run = []
    return runs + [(run, None)] if run else runs


def stamp(moment, offset):
    """A timestamp of 32 bits: month, day, hour and minute in local time, and the offset from UTC in minutes."""
    local = datetime(1970, 1, 1) + timedelta(seconds=moment, minutes=offset)
    date = local.month << 28 | local.day << 23 | local.hour << 18 | local.minute << 12
    return date | (offset >= 0) << 11 | abs(offset) // 60 << 6 | abs(offset) % 60


def file_octets(run, sequence, reason, settings, address):
    """The octets of a file of a gateway."""
    release, version, _, _ = run[0].kind
    kind = release << 5 | version
    times = stamp(run[0].moment, settings.offset), stamp(run[-1].moment, settings.offset)
    lengths = length_of(run, settings), header_length(run, settings)
    head = struct.pack(">IIBBIIIIB", *lengths, kind, kind, *times, len(run), sequence, reason)
    head += bytes(10) + b"\xff\xff" + struct.pack(">I", address) + bytes(4) + bytes(5)
    head += 2 * extension(run[0].kind, settings)
    for item in run:
        release, version, format_, _ = item.kind
        head += struct.pack(">HBB", len(item.octets), release << 5 | version, format_ << 5)
        head += extension(item.kind, settings) + item.octets
    return head


def files(history, settings):
    """All runs of a history, by stream and sequence number: (stream, sequence, records, reason or None)."""
    listed, found = items(history), []
    for stream in range(16):
        mine = [item for item in listed if item.mark or stream_of(item, settings.rules) == stream]
        runs = division(mine, settings)
        found += [(stream, sequence, *run) for sequence, run in enumerate(runs, 1)]
    return found


def file_lines(number, history, settings):
    """The lines of a report that show the closed files of the gateway of a number."""
    lines = []
    for stream, sequence, run, reason in files(history, settings):
        if reason is not None:
            octets = file_octets(run, sequence, reason, settings, 10 << 24 | number)
            lines.append(f"file {number} {stream:02}-{sequence:010}.cdr {octets.hex().upper()}")
    return lines
