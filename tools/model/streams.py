"""The command `stream`: one gateway, the messages of a stream of octets, the replies as octets, and its journal and CDR
files at the end.

    python3 streams.py IP NODE LENGTH AREA FOLDER - < STREAM

tells what it leaves and writes, where no device fails; nothing is changed. The moments are 0.
"""

import sys
from pathlib import Path
from typing import NamedTuple

import files
import gateway
import journal
import script
import stream
from serve import LENGTHS, Ended, Served, area_of, files_in, octets_of, sealed


class Words(NamedTuple):
    """What the words say: the gateway's address, the address from which each message counts as sent, and the length of
    the journal."""

    ip: int
    node: tuple
    length: int


def words_of(words):
    """What a list of words says, or None where it is none of the form of `stream`."""
    if len(words) != 7 or words[0] != "stream" or any(word != "-" and word.startswith("-") for word in words[4:]):
        return None
    ip, node, length = (word.encode() for word in words[1:4])
    try:
        return Words(script.address(ip + b":0")[0], script.address(node), script.number(*LENGTHS)(length))
    except script.Wrong:
        return None


def end_of(octets):
    """How a stream ends: its status, and what is said of it."""
    found = stream.bad(octets)
    _, rest = stream.frames(octets)
    if found is None and rest:
        found = len(octets) - len(rest), "Rest"
    return (0, b"") if found is None else (2, "cgf: input {}: {}\n".format(*found).encode())


def answered(served, node, message, moment):
    """The reply to a message, or no octets; all is firm then."""
    served.moment = moment
    reply, _, entry = gateway.answer(served.history, node, message, moment, len(served.area))
    if entry is not None:
        served.history = served.history + [entry]
    served.commit()
    return reply or b""


def run(words, octets, file, folder, moments=()):
    """How a run ends that finds the octets of a journal's file and the files of a folder, or None where there is none,
    and reads a stream; the moments are those of its messages, 0 where there are none."""
    said = words_of(words)
    if said is None:
        return Ended(1, b"", b"cgf: words\n", file, folder)
    area = area_of(file, said.length)
    if area is None:
        return Ended(6, b"", b"cgf: store\n", file, folder)
    try:
        served = Served(area, said.ip)
    except journal.NotOurs as fault:
        return Ended(6, b"", f"cgf: store {fault.at}\n".encode(), area, folder)
    messages, _ = stream.frames(octets)
    moments = list(moments) or [0] * len(messages)
    replies = [answered(served, said.node, message, moment) for message, moment in zip(messages, moments)]
    served.settle()
    left = None if folder is None else sealed(folder, served.history, files.Settings([]), said.ip)
    status, error = end_of(octets)
    if status == 0 and folder is None:
        status, error = 6, b"cgf: store\n"
    return Ended(status, b"".join(replies), error, bytes(served.area), left, replies)


def check():
    """The worked values: a message twice, in one stream; its first 43 octets; an octet of GTP."""
    one = bytes.fromhex("4EF0001000007E01FC000B010106000005A003800105")
    words = ["stream", "10.0.0.1", "10.0.1.1:40001", "1000", "area", "cdrs", "-"]
    replies = bytes.fromhex("4EF1000700000180FD000200004EF10007000001FDFD00020000")
    both = run(words, one + one, None, {})
    assert (both.status, both.output) == (0, replies) and list(both.folder) == ["00-0000000001.cdr"]
    cut = run(words, (one + one)[:43], None, {})
    assert (cut.status, cut.output, cut.error) == (2, replies[:13], b"cgf: input 22: Rest\n")
    assert cut.area == run(words, one, None, {}).area
    assert run(words, b"\x5e", None, {})[:3] == (2, b"", b"cgf: input 0: NotPrime\n")
    assert run(words, one + b"\x2e", None, {})[:3] == (2, replies[:13], b"cgf: input 22: Version\n")
    assert run(words, b"", None, {})[:3] == (0, b"", b"")
    assert run(words[:3] + ["99"] + words[4:], one, None, {})[:3] == (1, b"", b"cgf: words\n")


if __name__ == "__main__":
    given = ["stream", *sys.argv[1:]]
    if given == ["stream"]:
        sys.exit(check())
    found = (read(Path(path)) for read, path in zip((octets_of, files_in), (given + ["-"] * 2)[4:6]))
    ended = run(given, sys.stdin.buffer.read(), *found)
    sys.stdout.buffer.write(ended.output)
    sys.stderr.buffer.write(ended.error)
    sys.exit(ended.status)
