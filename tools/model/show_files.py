"""CDR files that are drawn at random: whole ones of both profiles, and most of them changed somewhere."""

import random

from files import EXTENDED

RELEASES = (0, 3, 6, EXTENDED, EXTENDED, EXTENDED)


def file(number):
    """The file of a number."""
    draw = random.Random(number)
    extends = draw.random() < 0.6
    releases = draw.choice(RELEASES), draw.choice(RELEASES)
    if draw.random() < 0.6:
        releases = releases[0], releases[0]
    extensions = draw.randbytes(releases.count(EXTENDED)) if extends else b""
    filters, private = (draw.randbytes(draw.choice((0, 0, 0, 1, 3))) for _ in range(2))
    octets = b""
    count = draw.choice((0, 1, 1, 2, 3))
    for _ in range(count):
        release = draw.choice((*releases, *RELEASES))
        record = draw.randbytes(draw.choice((0, 1, 5, 9)))
        head = len(record).to_bytes(2, "big") + bytes([release << 5 | draw.randrange(32), draw.randrange(256)])
        is_extended = len(extensions) > 0 and release == EXTENDED
        octets += head + (draw.randbytes(1) if is_extended else b"") + record
    parts = b"".join(len(part).to_bytes(2, "big") + part for part in (filters, private)) + extensions
    kinds = bytes(release << 5 | draw.randrange(32) for release in releases)
    rest = draw.randbytes(8) + count.to_bytes(4, "big") + draw.randbytes(26) + parts
    end = 4 + 4 + len(kinds) + len(rest)
    whole = bytearray((end + len(octets)).to_bytes(4, "big") + end.to_bytes(4, "big") + kinds + rest + octets)
    if draw.random() < 0.6:
        _change(draw, whole, end)
    return bytes(whole)


def _change(draw, whole, end):
    """Cuts a file, or changes an octet of it, and mostly mends the length that it says."""
    kind = draw.choice(("cut", "more", "head", "octet", "length", "header", "release", "count"))
    if kind == "cut":
        del whole[draw.randrange(len(whole)) :]
    elif kind == "more":
        whole += draw.randbytes(draw.randint(1, 6))
    elif kind == "head":
        # The first octets of one more CDR, mostly of a release above 9: its header wants one octet, or is whole.
        release = draw.choice((EXTENDED, EXTENDED, 3))
        head = bytes([0, draw.choice((0, 0, 1)), release << 5 | draw.randrange(32), draw.randrange(256)])
        whole += head + draw.randbytes(draw.choice((0, 0, 1)))
        whole[18:22] = (int.from_bytes(whole[18:22], "big") + 1).to_bytes(4, "big")
    elif kind == "octet":
        whole[draw.randrange(len(whole))] = draw.randrange(256)
    elif kind == "length":
        whole[draw.choice((48, 49, 50, 51))] ^= 1 << draw.randrange(3)
    elif kind == "header":
        whole[4:8] = (end + draw.choice((-3, -2, -1, 1, 2))).to_bytes(4, "big")
    elif kind == "release":
        whole[draw.choice((8, 9))] ^= draw.choice((0x20, 0x40, 0x80, 0xE0))
    else:
        whole[21] ^= 1
    if draw.random() < 0.8 and len(whole) >= 4:
        whole[0:4] = len(whole).to_bytes(4, "big")
