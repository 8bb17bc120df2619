"""A datagram of one packet that is cut after each octet, and each change of one of its bits, by a plain list of the
conditions of docs/formats/wire.md: what a gateway answers that has heard nothing from its sender. It shares nothing
with the other models.

    python3 bits.py

compares this with the stories of crates/story_runs. The exit status is 1 where one differs.
"""

import sys
from pathlib import Path

DATAGRAM = bytes.fromhex("4EF0001000007E01FC000B010106000005A003800105")
STORIES = Path(__file__).resolve().parents[2] / "crates" / "story_runs"
CUTS, CHANGES = "a datagram that is cut is dropped", "each change of one bit of octet "
FIXED = (1, 14, 126)
NEEDED = {1: (), 2: (14,), 4: (), 240: (126,)}


def number(octets):
    """The number that octets spell."""
    return int.from_bytes(octets, "big")


def body(datagram):
    """The octets that the header's length counts."""
    return datagram[6 : 6 + number(datagram[2:4])]


def elements(octets):
    """The elements of a body as pairs of a type and a value; the last is None where it is faulty."""
    if not octets:
        return []
    kind, at = octets[0], 1 if octets[0] < 128 else 3
    length = 1 if kind < 128 else number(octets[1:3])
    if kind < 128 and kind not in FIXED or len(octets) < at + length:
        return [None]
    return [(kind, octets[at : at + length]), *elements(octets[at + length :])]


def value(datagram, kind):
    """The value of the first element of a type, or None where there is none."""
    return next((value for name, value in elements(body(datagram)) if name == kind), None)


def command(datagram):
    """The command of a request."""
    return number(value(datagram, 126))


def named(datagram):
    """The type of the element that the command of a request needs."""
    return {1: 252, 2: 252, 3: 250, 4: 249}[command(datagram)]


def records(packet):
    """The records of a packet's value, behind its first four octets; the last is None where octets are wanting."""
    if not packet:
        return []
    end = 2 + number(packet[:2])
    return [packet[2:end], *records(packet[end:])] if 2 <= len(packet) >= end else [None]


def is_empty(packet):
    """Whether a packet's value is one of those of the empty packet."""
    return packet == b"" or packet[0] == 0 and len(packet) in (1, 4)


def is_packet(packet):
    """Whether a value is a packet's."""
    found = records(packet[4:])
    return is_empty(packet) or len(packet) >= 4 and 0 < packet[0] == len(found) and None not in found


def is_form(datagram):
    """Whether the element that a command needs has its form."""
    said = value(datagram, named(datagram))
    return is_packet(said) if named(datagram) == 252 else len(said) % 2 == 0


def is_value(octets):
    """Whether octets are one value of BER, of definite length below 128 with a tag of one octet: no other stands among
    the records tried here."""
    return len(values(octets)) == 1 and None not in values(octets)


def values(octets):
    """The values of BER that stand one after the other; the last is None where octets are no value."""
    if not octets:
        return []
    end = 2 + number(octets[1:2])
    value = octets[2:end]
    if len(octets) < max(end, 2) or octets[1] > 127 or octets[0] & 32 and None in values(value):
        return [None]
    return [value, *values(octets[end:])]


def are_read(datagram):
    """Whether each record of format 1 is one value of BER."""
    if command(datagram) > 2 or is_empty(value(datagram, 252)) or value(datagram, 252)[1] != 1:
        return True
    return all(is_value(record) for record in records(value(datagram, 252)[4:]))


def dropped(why):
    return lambda datagram: f"- {why}"


def replied(kind):
    """The message of a type without a body, which bears the datagram's number."""
    return lambda datagram: (bytes([0x4E, kind, 0, 0]) + datagram[4:6]).hex().upper()


def caused(cause):
    """The response of a cause to a request; another message is dropped."""
    def answer(datagram):
        response = bytes([0x4E, 241, 0, 7]) + datagram[4:6] + bytes([1, cause, 253, 0, 2]) + datagram[4:6]
        return response.hex().upper() if datagram[1] == 240 else "- Malformed"
    return answer


# The first condition that holds decides.
CONDITIONS = [
    (lambda d: len(d) < 6, dropped("Short")),
    (lambda d: d[0] & 16, dropped("NotPrime")),
    (lambda d: d[0] >> 5 != 2 and d[1] == 3, dropped("Stray")),
    (lambda d: d[0] >> 5 != 2, replied(3)),
    (lambda d: len(d) - 6 < number(d[2:4]), dropped("Cut")),
    (lambda d: d[1] not in (1, 2, 3, 4, 5, 6, 7, 240, 241), dropped("UnknownType")),
    (lambda d: d[1] in (3, 5, 6, 7, 241), dropped("Stray")),
    (lambda d: None in elements(body(d)), caused(193)),
    (lambda d: any(value(d, kind) is None for kind in NEEDED[d[1]]), caused(202)),
    (lambda d: d[1] == 240 and command(d) not in (1, 2, 3, 4), caused(201)),
    (lambda d: d[1] == 240 and value(d, named(d)) is None, caused(202)),
    (lambda d: d[1] == 240 and not is_form(d), caused(201)),
    (lambda d: d[1] == 240 and not are_read(d), caused(177)),
    # Nothing is held.
    (lambda d: d[1] == 240 and command(d) > 2, caused(254)),
    (lambda d: d[1] == 240, caused(128)),
    (lambda d: d[1] == 4, replied(1)),
    (lambda d: d[1] == 2, replied(5)),
]


def answer(datagram):
    """What a gateway answers to a datagram of a node from which it has heard nothing."""
    return next(say(datagram) for is_so, say in CONDITIONS if is_so(datagram))


def cuts():
    """The datagram cut after each octet."""
    return [DATAGRAM[:length] for length in range(len(DATAGRAM))]


def changes(place):
    """The datagram with each bit of an octet changed, the highest first."""
    return [DATAGRAM[:place] + bytes([DATAGRAM[place] ^ 1 << bit]) + DATAGRAM[place + 1 :] for bit in range(7, -1, -1)]


def stories(part):
    """The lines of each story, by its name."""
    texts = (STORIES / part).read_text(encoding="ascii", errors="replace").split("\n== ")[1:]
    return {text.partition("\n")[0]: text.splitlines()[1:] for text in texts}


def differing(name, datagrams, given, told):
    """What differs of a story: its datagrams, or what is answered."""
    asked = [line.split()[2] for line in given if line.startswith("in ")]
    if asked != [datagram.hex().upper() for datagram in datagrams]:
        return [f"{name}: other datagrams"]
    wrong = [(each, said) for each, said in zip(datagrams, told) if said != answer(each)]
    return [f"{name}: {each.hex().upper()} gives {said}, not {answer(each)}" for each, said in wrong]


def main():
    given, told, wrong, count = stories("stdin"), stories("stdout"), [], 0
    for name, lines in given.items():
        # What has no octet can't stand in a feed.
        is_changed = name.startswith(CHANGES)
        tried = cuts()[1:] if name == CUTS else []
        if is_changed:
            tried = changes(int(name[len(CHANGES) :].partition(":")[0]))
        if tried:
            wrong += differing(name, tried, lines, told[name])
            count += len(tried)
    print(*wrong, f"{count} datagrams, {len(wrong)} differ", sep="\n")
    return len(wrong) > 0 or count != 8 * len(DATAGRAM) + len(DATAGRAM) - 1


if __name__ == "__main__":
    sys.exit(main())
