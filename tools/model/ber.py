"""BER framing of records: whether octets are exactly one value, and the first fault where they aren't.

A fault is a pair of a place and a kind. The place is the first octet of the value that fails; for octets behind the
outer value it is the first of them.
"""

from typing import NamedTuple

DEEPEST = 32
GREATEST = 2**32 - 1


class Tag(NamedTuple):
    """An identifier: class 0 to 3, constructed or primitive, and number."""

    class_: int
    constructed: bool
    number: int


class Fault(Exception):
    """The first fault: its place and its kind."""

    def __init__(self, at, kind):
        super().__init__(at, kind)
        self.at = at
        self.kind = kind


def _identifier(octets, at, end):
    """The tag at a place and the place behind its octets, which must lie before `end`."""
    if at >= end:
        raise Fault(at, "Cut")
    first = octets[at]
    number, behind = first & 31, at + 1
    if number == 31:
        number = 0
        while True:
            if behind >= end:
                raise Fault(at, "Cut")
            group = octets[behind]
            number = number << 7 | group & 127
            behind += 1
            if group < 128:
                break
    if number > GREATEST:
        raise Fault(at, "TagTooBig")
    return Tag(first >> 6, first & 32 != 0, number), behind


def _length(octets, at, place, end):
    """The length at a place in the value that begins at `at`, None where it is indefinite, and the place behind."""
    if place >= end:
        raise Fault(at, "Cut")
    first = octets[place]
    place += 1
    if first < 128:
        return first, place
    if first == 128:
        return None, place
    if first == 255:
        raise Fault(at, "LengthTooBig")
    if place + first - 128 > end:
        raise Fault(at, "Cut")
    length = int.from_bytes(octets[place : place + first - 128], "big")
    if length > GREATEST:
        raise Fault(at, "LengthTooBig")
    return length, place + first - 128


def _value(octets, at, end, depth):
    """Reads the value at a place, whose enclosing value ends at `end`; answers its tag and the place behind it."""
    tag, place = _identifier(octets, at, end)
    length, place = _length(octets, at, place, end)
    if length is None and not tag.constructed:
        raise Fault(at, "Indefinite")
    if depth > DEEPEST:
        raise Fault(at, "TooDeep")
    if length is None:
        while octets[place : min(place + 2, end)] != b"\0\0":
            place = _value(octets, place, end, depth + 1)[1]
        return tag, place + 2
    if place + length > end:
        raise Fault(at, "Cut")
    if tag.constructed:
        inner = place
        while inner < place + length:
            inner = _value(octets, inner, place + length, depth + 1)[1]
    return tag, place + length


def check(octets):
    """The outer tag of octets that are exactly one value; raises the first fault else."""
    tag, behind = _value(octets, 0, len(octets), 1)
    if behind < len(octets):
        raise Fault(behind, "Trailing")
    return tag


def identifier(octets):
    """The tag of octets that are exactly one identifier; raises the first fault else."""
    tag, behind = _identifier(octets, 0, len(octets))
    if behind < len(octets):
        raise Fault(behind, "Trailing")
    return tag
