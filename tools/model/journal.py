"""A journal's octets: how a list of entries is spelled in batches, and what an area of octets is opened as.

What a gateway writes is told as the octets of its area after it. No device fails here.
"""

import struct

import ber
import gateway as book
import wire
from gateway import Entry
from script import LAST_MOMENT

MAGIC, FIRST_GATE, LARGEST_BATCH = b"CGFJRNL1", 32, 1_048_576
OPEN, CLOSED = 0xA5, 0
KINDS = ("Start", "Path", "File", "Hold", "Seal", "Release", "Cancel", "Tick", "Close")
HEAD = struct.Struct(">IBQIQ")


class NotOurs(Exception):
    """An area that isn't this gateway's journal: the first place that shows it."""

    def __init__(self, at):
        super().__init__(at)
        self.at = at


class Unread(Exception):
    """Octets with which no entry begins."""


def header(length, address):
    """The first octets of the area of a gateway."""
    return MAGIC + struct.pack(">QIIQ", length, address, 0, 0)


def body(entry):
    """What an entry names, spelled."""
    node = struct.pack(">I", entry.node) if entry.node is not None else b""
    if entry.kind == "Path":
        return node + struct.pack(">HB", entry.port, entry.counter)
    if entry.kind in ("File", "Hold", "Seal"):
        packet = entry.packet.value if entry.packet else b""
        return node + struct.pack(">Q", entry.numbers[0]) + packet
    if entry.kind in ("Release", "Cancel"):
        return node + struct.pack(f">I{len(entry.numbers)}Q", len(entry.numbers), *entry.numbers)
    return b""


def spelled(entry):
    """The octets of an entry."""
    named = body(entry)
    kind = KINDS.index(entry.kind) + 1
    return HEAD.pack(HEAD.size + len(named), kind, entry.moment, entry.session, entry.serial) + named


def named_by(kind, octets):
    """What the body of an entry of a kind names."""
    if kind == "Path":
        node, port, counter = struct.unpack(">IHB", octets)
        return {"node": node, "port": port, "counter": counter}
    if kind in ("File", "Hold"):
        node, number = struct.unpack(">IQ", octets[:12])
        return {"node": node, "numbers": (number,), "packet": wire.packet(octets[12:])}
    if kind == "Seal":
        node, number = struct.unpack(">IQ", octets)
        return {"node": node, "numbers": (number,)}
    if kind in ("Release", "Cancel"):
        node, count = struct.unpack(">II", octets[:8])
        return {"node": node, "numbers": struct.unpack(f">{count}Q", octets[8:])}
    struct.unpack("", octets)
    return {}


def entry_of(octets):
    """The entry with which octets begin, and the rest."""
    try:
        length, kind, moment, session, serial = HEAD.unpack(octets[: HEAD.size])
        if not HEAD.size <= length <= len(octets) or not 1 <= kind <= len(KINDS):
            raise Unread
        named = named_by(KINDS[kind - 1], octets[HEAD.size : length])
    except (struct.error, ValueError):
        raise Unread from None
    return Entry(moment, KINDS[kind - 1], **named, session=session, serial=serial), octets[length:]


def is_sound(packet):
    """Whether a packet has records, which are BER values where its format says so."""
    try:
        return not packet.is_empty() and all(packet.format != 1 or ber.check(each) for each in packet.records)
    except ber.Fault:
        return False


def names_fresh(history, entry):
    """Whether a packet or a test names a number that is fresh, in range, and not too far below the greatest one."""
    entries, number = book.present(history, entry.node), entry.numbers[0]
    top = book.top_among(entries)
    is_near = top is None or number >= top - 32_768
    is_in_range = book.LEAST_NUMBER <= number < book.NUMBER_BOUND
    return is_near and is_in_range and book.state_among(entries, number) == "Fresh"


def names_held(history, entry):
    """Whether a release or cancel names held copies alone, at least one, and each once."""
    held = book.held(history)
    is_once = 0 < len(entry.numbers) == len(set(entry.numbers))
    return is_once and all((entry.node, number) in held for number in entry.numbers)


def is_fit(history, entry, length):
    """Whether an entry may stand behind a history in an area of a length."""
    nodes = book.known(history)
    if entry.moment > LAST_MOMENT or history and entry.moment < history[-1].moment:
        return False
    if entry.kind in ("Path", "File", "Hold", "Seal") and entry.node not in nodes and len(nodes) >= book.MOST_NODES:
        return False
    if entry.kind in ("File", "Hold", "Seal") and not names_fresh(history, entry):
        return False
    if entry.kind in ("File", "Hold") and not is_sound(entry.packet):
        return False
    if entry.kind == "Hold" and len(book.held(history)) >= book.MOST_COPIES:
        return False
    if entry.kind in ("Release", "Cancel") and not names_held(history, entry):
        return False
    return book.has_room(history, entry, length)


def batch_at(area, gate):
    """The content behind an open gate, and the next gate; None where the area ends before it."""
    if gate + 5 > len(area):
        return None
    end = gate + 5 + int.from_bytes(area[gate + 1 : gate + 5], "big")
    return (area[gate + 5 : end], end) if end < len(area) and end - gate - 5 <= LARGEST_BATCH else None


def with_batch(history, content, length):
    """A history with the entries of a batch behind it, or None where they aren't fit."""
    if content == b"":
        return None
    while content:
        try:
            entry, content = entry_of(content)
        except Unread:
            return None
        if not is_fit(history, entry, length):
            return None
        history = history + [entry]
    return history


def read(area):
    """The history of an area whose header is right, and the place of its first closed gate."""
    history, gate = [], FIRST_GATE
    while area[gate] == OPEN:
        found = batch_at(area, gate)
        longer = found and with_batch(history, found[0], len(area))
        if longer is None:
            raise NotOurs(gate)
        history, gate = longer, found[1]
    return history, gate


def opened(area, address):
    """An area as opening leaves it, its history, and the place of its first closed gate."""
    wanted = header(len(area), address)
    if area[0] == 0 or area[0] != wanted[0] and area[1:FIRST_GATE] == wanted[1:]:
        return wanted + bytes([CLOSED]) + area[FIRST_GATE + 1 :], [], FIRST_GATE
    for at, octet in enumerate(wanted):
        if area[at] != octet:
            raise NotOurs(at)
    return area, *read(area)


def append(area, gate, entries):
    """Writes a batch of these entries at a gate of an area, a bytearray; answers the next gate. Without entries nothing
    is written."""
    if not entries:
        return gate
    content = b"".join(map(spelled, entries))
    batch = bytes([OPEN]) + struct.pack(">I", len(content)) + content + bytes([CLOSED])
    area[gate : gate + len(batch)] = batch
    return gate + len(batch) - 1
