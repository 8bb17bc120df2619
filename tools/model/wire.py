"""GTP' version 2: how a datagram is read at either end of a path, and how the messages that are sent are spelled.

A reading is one of four tuples: ("drop", why), ("version", number) for a message of another version,
("refused", cause, kind, number) for what is answered by a cause, and ("message", kind, number, body). The body of a
message depends on its kind: the counter of an Echo Response, the cause and the address or None of a Redirection
Request, the cause of a Redirection Response, the cause and the numbers of a Data Record Transfer Response, and of a
Data Record Transfer Request its command and its packet or its list of numbers.
"""

import struct
from typing import NamedTuple, Optional

import ber

ECHO_REQUEST, ECHO_RESPONSE, VERSION, ALIVE_REQUEST, ALIVE_RESPONSE = 1, 2, 3, 4, 5
REDIRECTION_REQUEST, REDIRECTION_RESPONSE, TRANSFER_REQUEST, TRANSFER_RESPONSE = 6, 7, 240, 241
KINDS = (1, 2, 3, 4, 5, 6, 7, 240, 241)
STRAY = {"gateway": (3, 5, 6, 7, 241), "node": (3, 4, 240)}
CAUSE, RECOVERY, COMMAND = 1, 14, 126
RELEASED, CANCELLED, ADDRESS, PACKET, RESPONDED, RECOMMENDED = 249, 250, 251, 252, 253, 254
SEND, POSSIBLE, CANCEL, RELEASE = 1, 2, 3, 4


class Packet(NamedTuple):
    """A data record packet: the octets of its value, and of one that has records their format, version and octets."""

    value: bytes
    format: int = 0
    version: int = 0
    records: Optional[tuple] = None

    def is_empty(self):
        return self.records is None


class Refusal(Exception):
    """A body that is refused by a cause."""


def packet(value):
    """Reads the value of a packet; raises ValueError where it has no form of one."""
    if value == b"" or value[0] == 0 and len(value) in (1, 4):
        return Packet(value)
    if value[0] == 0 or len(value) < 4:
        raise ValueError("no packet")
    records, at = [], 4
    for _ in range(value[0]):
        if at + 2 > len(value):
            raise ValueError("a length is cut")
        end = at + 2 + int.from_bytes(value[at : at + 2], "big")
        if end > len(value):
            raise ValueError("a record is cut")
        records.append(value[at + 2 : end])
        at = end
    if at != len(value):
        raise ValueError("octets behind the records")
    return Packet(value, value[1], int.from_bytes(value[2:4], "big"), tuple(records))


def packet_value(format_, version, records):
    """The value of a packet of these records."""
    head = struct.pack(">BBH", len(records), format_, version)
    return head + b"".join(struct.pack(">H", len(record)) + record for record in records)


def _elements(body):
    """The first value of each kind of element in a body."""
    found, at = {}, 0
    while at < len(body):
        kind, at = body[at], at + 1
        if kind < 128:
            if kind not in (CAUSE, RECOVERY, COMMAND):
                raise Refusal(193)
            length = 1
        else:
            if at + 2 > len(body):
                raise Refusal(193)
            length, at = int.from_bytes(body[at : at + 2], "big"), at + 2
        if at + length > len(body):
            raise Refusal(193)
        found.setdefault(kind, body[at : at + length])
        at += length
    return found


def _needed(elements, kind):
    if kind not in elements:
        raise Refusal(202)
    return elements[kind]


def _numbers(value):
    if len(value) % 2:
        raise Refusal(201)
    return [number for (number,) in struct.iter_unpack(">H", value)]


def _transfer(elements):
    """The command of a request with its packet or its numbers."""
    command = _needed(elements, COMMAND)[0]
    if command not in (SEND, POSSIBLE, CANCEL, RELEASE):
        raise Refusal(201)
    if command in (CANCEL, RELEASE):
        return command, _numbers(_needed(elements, CANCELLED if command == CANCEL else RELEASED))
    try:
        sent = packet(_needed(elements, PACKET))
    except ValueError:
        raise Refusal(201) from None
    if not sent.is_empty() and sent.format == 1:
        for record in sent.records:
            try:
                ber.check(record)
            except ber.Fault:
                raise Refusal(177) from None
    return command, sent


def _body(kind, body):
    """What a body of a kind says."""
    elements = _elements(body)
    if kind == ECHO_RESPONSE:
        return _needed(elements, RECOVERY)[0]
    if kind == REDIRECTION_REQUEST:
        cause, to = _needed(elements, CAUSE)[0], elements.get(RECOMMENDED)
        if to is not None and len(to) not in (4, 16):
            raise Refusal(201)
        return cause, to
    if kind == REDIRECTION_RESPONSE:
        return _needed(elements, CAUSE)[0]
    if kind == TRANSFER_RESPONSE:
        cause, responded = _needed(elements, CAUSE)[0], _needed(elements, RESPONDED)
        return cause, _numbers(responded)
    if kind == TRANSFER_REQUEST:
        return _transfer(elements)
    return None


def reading(role, octets):
    """How a datagram is read at a gateway or at a node: the first test that it fails decides."""
    if len(octets) < 6:
        return "drop", "Short"
    if octets[0] & 16:
        return "drop", "NotPrime"
    kind, length, number = struct.unpack(">BHH", octets[1:6])
    if octets[0] >> 5 != 2:
        return ("drop", "Stray") if kind == VERSION else ("version", number)
    if len(octets) < 6 + length:
        return "drop", "Cut"
    if kind not in KINDS:
        return "drop", "UnknownType"
    if kind in STRAY[role]:
        return "drop", "Stray"
    try:
        return "message", kind, number, _body(kind, octets[6 : 6 + length])
    except Refusal as refusal:
        if kind == TRANSFER_REQUEST or kind == REDIRECTION_REQUEST and role == "node":
            return "refused", refusal.args[0], kind, number
        return "drop", "Malformed"


def element(kind, value):
    """The spelling of an element."""
    return bytes([kind]) + (value if kind < 128 else struct.pack(">H", len(value)) + value)


def message(kind, number, *elements):
    """The spelling of a message of these pairs of a kind of element and a value."""
    body = b"".join(element(*pair) for pair in elements)
    return struct.pack(">BBHH", 0x4E, kind, len(body), number % 65536) + body


def response(cause, number):
    """A Data Record Transfer Response to the request of a number."""
    return message(TRANSFER_RESPONSE, number, (CAUSE, bytes([cause])), (RESPONDED, struct.pack(">H", number)))


def alive_request(number, address):
    """A Node Alive Request, which bears the address of its sender."""
    return message(ALIVE_REQUEST, number, (ADDRESS, struct.pack(">I", address)))


def echo_response(number, counter):
    """An Echo Response with a restart counter."""
    return message(ECHO_RESPONSE, number, (RECOVERY, bytes([counter])))


def redirection_request(number, cause, to):
    """A Redirection Request, with the address of another gateway where one is recommended."""
    elements = [(CAUSE, bytes([cause]))] + ([] if to is None else [(RECOMMENDED, struct.pack(">I", to))])
    return message(REDIRECTION_REQUEST, number, *elements)


def redirection_response(number, cause):
    """A Redirection Response."""
    return message(REDIRECTION_RESPONSE, number, (CAUSE, bytes([cause])))


def transfer_request(number, command, body):
    """A Data Record Transfer Request: a packet's value, or the number that a release or cancel names."""
    kinds = {SEND: PACKET, POSSIBLE: PACKET, CANCEL: CANCELLED, RELEASE: RELEASED}
    value = body if command in (SEND, POSSIBLE) else struct.pack(">H", body % 65536)
    return message(TRANSFER_REQUEST, number, (COMMAND, bytes([command])), (kinds[command], value))
