"""GTP' over a stream of octets, as functions of the whole stream: its messages, the rest, and where it is bad."""

VERSION = 2


def fault(octets):
    """What is wrong with the first of these octets as octet 1 of a message: NotPrime, Version, or None."""
    if not octets:
        return None
    if octets[0] >> 4 & 1:
        return "NotPrime"
    return None if octets[0] >> 5 == VERSION else "Version"


def frames(octets):
    """The longest list of whole messages with which a stream begins, and the rest that follows them."""
    messages = []
    while not fault(octets) and len(octets) >= 6:
        end = 6 + int.from_bytes(octets[2:4], "big")
        if len(octets) < end:
            break
        messages.append(octets[:end])
        octets = octets[end:]
    return messages, octets


def bad(octets):
    """The place of the octet at which a stream is bad, and why; None where it isn't."""
    _, rest = frames(octets)
    why = fault(rest)
    return why and (len(octets) - len(rest), why)


def answers(octets, pieces):
    """What a deframer answers that is given a stream in pieces of these lengths, one after the other, each piece until
    it is used: the octets used, and Whole with the message, More, or Bad with its place and why. After Bad each piece
    is answered by it again, an empty one too."""
    at, used, told = 0, 0, []
    for size in pieces:
        end = min(at + size, len(octets))
        while True:
            _, rest = frames(octets[:used])
            begun = len(rest)
            why = fault(octets[used - begun : end])
            if told and told[-1][1] == "Bad":
                told.append(told[-1])
                break
            if why:
                told.append((0, "Bad", used - begun, why))
                break
            counts = [n for n in range(1, end - used + 1) if frames(octets[used - begun : used + n])[0]]
            if counts:
                told.append((counts[0], "Whole", octets[used - begun : used + counts[0]]))
                used += counts[0]
                continue
            told.append((end - used, "More"))
            used = end
            break
        at = end
    return told


def check():
    """The worked values."""
    one = bytes.fromhex("4EF000050000") + bytes(5)
    assert frames(one + one[:3]) == ([one], one[:3])
    assert bad(b"\x5e") == (0, "NotPrime") and bad(one + b"\x2e") == (11, "Version") and bad(one) is None
    assert [a[1] for a in answers(one + one, [11, 1, 100])] == ["Whole", "More", "More", "Whole", "More"]
    bad_ever_after = 3 * [(0, "Bad", 11, "Version")]
    assert answers(one + b"\x2e" + one, [5, 7, 0, 3]) == [(5, "More"), (6, "Whole", one), *bad_ever_after]
    assert answers(b"\x5e", [0, 1]) == [(0, "More"), (0, "Bad", 0, "NotPrime")]
    for size in (1, 7, 44):
        told = answers(one + one, [size] * 44)
        assert [a[2] for a in told if a[1] == "Whole"] == [one, one]


if __name__ == "__main__":
    check()
