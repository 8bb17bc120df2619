"""CDR files as they are read and listed: the tests in their order, and the listing's lines (docs/formats/files.md)."""

from typing import NamedTuple

from files import CDR_HEADER, EXTENDED, HEADER

PLACE_OF_COUNT, PLACE_OF_FILTER = 18, 48


class Fault(Exception):
    """Why octets aren't a file, and where."""

    def __init__(self, place, kind):
        super().__init__(place, kind)
        self.place, self.kind = place, kind


class Cdr(NamedTuple):
    """The header of a CDR, and its octets."""

    head: bytes
    extension: bytes
    octets: bytes


def number(octets, place, width):
    """The number in octets from a place on, high octet first."""
    return int.from_bytes(octets[place : place + width], "big")


def header(octets):
    """Where the filter, the private extension and the extensions of releases stand, each as its first place and that
    behind its last."""
    if len(octets) < HEADER:
        raise Fault(len(octets), "Short")
    if number(octets, 0, 4) != len(octets):
        raise Fault(len(octets), "FileLength")
    end = number(octets, 4, 4)
    if not HEADER <= end <= len(octets):
        raise Fault(4, "HeaderLength")
    private = PLACE_OF_FILTER + 2 + number(octets, PLACE_OF_FILTER, 2)
    if private + 2 > end:
        raise Fault(PLACE_OF_FILTER, "Filter")
    behind = private + 2 + number(octets, private, 2)
    sevens = [octets[place] >> 5 for place in (8, 9)].count(EXTENDED)
    if end - behind not in (0, sevens):
        raise Fault(private, "Extension")
    return (PLACE_OF_FILTER + 2, private), (private + 2, behind), (behind, end)


def cdrs(octets, place, is_extended):
    """The CDRs from a place on."""
    found = []
    while place < len(octets):
        rest = octets[place:]
        more = is_extended and len(rest) >= CDR_HEADER and rest[2] >> 5 == EXTENDED
        head = CDR_HEADER + more
        if len(rest) < head:
            raise Fault(place, "CdrHeader")
        length = head + number(rest, 0, 2)
        if len(rest) < length:
            raise Fault(place, "CdrCut")
        found.append(Cdr(rest[:CDR_HEADER], rest[CDR_HEADER:head], rest[head:length]))
        place += length
    return found


def release(octet, extension):
    """A release, with its extension where it has one, and a version."""
    more = f"+{extension[0]}" if extension else ""
    return f"{octet >> 5}{more}.{octet & 31}"


def stamp(value):
    """A timestamp as it is listed."""
    widths = (28, 4), (23, 5), (18, 5), (12, 6), (11, 1), (6, 5), (0, 6)
    fields = [value >> low & (1 << width) - 1 for low, width in widths]
    month, day, hour, minute, sign, hours, minutes = fields
    return f"{month:02}-{day:02}/{hour:02}:{minute:02}/{'+' if sign else '-'}{hours:02}:{minutes:02}"


def listing(octets):
    """The lines of a file."""
    filters, private, extensions = (octets[first:behind] for first, behind in header(octets))
    read = cdrs(octets, number(octets, 4, 4), len(extensions) > 0)
    if len(read) != number(octets, PLACE_OF_COUNT, 4):
        raise Fault(PLACE_OF_COUNT, "Count")
    high = extensions[:1] if octets[8] >> 5 == EXTENDED else b""
    low = extensions[len(high) :]
    words = [len(octets), number(octets, 4, 4), release(octets[8], high), release(octets[9], low)]
    words += [stamp(number(octets, place, 4)) for place in (10, 14)]
    words += [number(octets, place, 4) for place in (18, 22)]
    words += [octets[26], octets[27:47].hex().upper(), octets[47]]
    lines = [" ".join(map(str, ["file", *words]))]
    lines += [f"{name} {part.hex().upper()}" for name, part in (("filter", filters), ("extension", private)) if part]
    for index, cdr in enumerate(read, 1):
        octet, shared = cdr.head[2:]
        words = [index, number(cdr.head, 0, 2), release(octet, cdr.extension), shared >> 5, shared & 31]
        lines.append(" ".join(map(str, ["cdr", *words, cdr.octets.hex().upper() or "-"])))
    return "".join(line + "\n" for line in lines).encode()


def show(octets):
    """What the program writes of octets, its exit status, and what it writes on standard error."""
    try:
        return listing(octets), 0, b""
    except Fault as fault:
        return b"", 2, f"cgf: input {fault.place}: {fault.kind}\n".encode()
