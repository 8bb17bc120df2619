"""The command `serve`: one gateway on a socket, with its journal in a file and its CDR files in a folder.

What it does is told of a list of datagrams that are answered one after the other. No device, socket or clock fails but
where an address can't be bound or the file or the folder isn't as it must be.

    python3 serve.py IP PORT TURNS LENGTH AREA FOLDER < SETTINGS

tells what it leaves and writes where no datagram comes; nothing is changed.
"""

import sys
from pathlib import Path
from typing import NamedTuple, Optional

import feed
import files
import gateway
import journal
import script
from gateway import Entry

SESSIONS, MOST_TURNS, LENGTHS = 4, 2**40, (100, 268_435_456)


class Words(NamedTuple):
    """What the words say."""

    ip: int
    port: int
    turns: int
    length: int


class Datagram(NamedTuple):
    """A datagram that is received: its sender's address and port, its octets, and the moment."""

    sender: tuple
    octets: bytes
    moment: int = 0


class Ended(NamedTuple):
    """How a run ends: its status, what it writes on standard output and as the last line on standard error, the octets
    of the journal's file and the files of the folder by name, each None where there is none, and the reply to each
    datagram, or None."""

    status: int
    output: bytes
    error: bytes
    area: Optional[bytes]
    folder: Optional[dict]
    replies: list = []


def words_of(words):
    """What a list of words says, or None where it is none of the form of `serve`."""
    if len(words) != 7 or words[0] != "serve" or any(word != "-" and word.startswith("-") for word in words):
        return None
    ip, port, turns, length = (word.encode() for word in words[1:5])
    try:
        place = script.address(ip + b":" + port)
        return Words(*place, script.number(1, MOST_TURNS)(turns), script.number(*LENGTHS)(length))
    except script.Wrong:
        return None


def area_of(file, length):
    """The area that a file gives: one that is shorter and not yet begun is filled up. None where it is refused."""
    octets = file or b""
    if len(octets) < length and octets[:1] in (b"", b"\0"):
        octets += bytes(length - len(octets))
    return octets if len(octets) == length else None


class Served:
    """A gateway that serves: its area and the place of its first closed gate, its history, and how much of it is
    firm."""

    def __init__(self, area, address):
        opened, self.history, self.gate = journal.opened(area, address)
        self.area = bytearray(opened)
        self.firm, self.serial, self.moment = len(self.history), 0, 0
        start = Entry(gateway.moment_of(self.history, 0), "Start")
        if gateway.has_room(self.history, start, len(area)):
            self.history = self.history + [start]

    def commit(self):
        """Makes the history firm."""
        self.gate = journal.append(self.area, self.gate, self.history[self.firm :])
        self.firm = len(self.history)

    def hear(self, datagram):
        """The reply to a datagram, or None where it is dropped; a reply goes out once all is firm."""
        self.serial += 1
        self.moment = max(self.moment, datagram.moment)
        said = datagram.sender, datagram.octets, datagram.moment
        reply, _, entry = gateway.answer(self.history, *said, len(self.area))
        if entry is not None:
            session = datagram.sender[0] % SESSIONS
            self.history = self.history + [entry._replace(session=session, serial=self.serial)]
        if reply is not None:
            self.commit()
        return reply

    def settle(self):
        """Makes all firm, and closes the open files where there are any."""
        self.commit()
        self.history = feed.closed(self.history, self.moment)
        self.commit()


def sealed(folder, history, settings, address):
    """A folder with the files of a history behind those that it has; of each stream the last one tells which it has. A
    part that a run left is written anew as the next file of its stream."""
    found = dict(folder)
    for stream, sequence, run, reason in files.files(history, settings):
        last = max((int(name[3:13]) for name in folder if name.startswith(f"{stream:02}-")), default=0)
        if reason is not None and sequence > last:
            name = f"{stream:02}-{sequence:010}.cdr"
            found[name] = files.file_octets(run, sequence, reason, settings, address)
            found.pop(f"{stream:02}.part", None)
    return found


def serve(words, text, file, folder, heard=(), is_bound=True):
    """How a run ends that finds the octets of a journal's file and the files of a folder, or None where there is none,
    and hears these datagrams at an address that can be bound or not."""
    said = words_of(words)
    if said is None:
        return Ended(1, b"", b"cgf: words\n", file, folder)
    try:
        settings = files.Settings(script.read(text, "serve"))
    except script.Fault as fault:
        return Ended(2, b"", f"cgf: input {fault.place}: {fault.kind}\n".encode(), file, folder)
    area = area_of(file, said.length)
    if folder is None or area is None:
        return Ended(6, b"", b"cgf: store\n", file, folder)
    try:
        served = Served(area, said.ip)
    except journal.NotOurs as fault:
        return Ended(6, b"", f"cgf: store {fault.at}\n".encode(), area, folder)
    return settled(said, settings, served, folder, list(map(served.hear, heard)), is_bound)


def settled(said, settings, served, folder, replies, is_bound):
    """How a run ends that has heard all."""
    served.settle()
    area = bytes(served.area)
    left = sealed(folder, served.history, settings, said.ip)
    if not is_bound:
        return Ended(7, b"", b"cgf: link\n", area, left, replies)
    line = feed.gateway_line(1, served.history).encode() + b"\n"
    return Ended(0, line, b"", area, left, replies)


def octets_of(path):
    """The octets of a file, or None where there is none."""
    return path.read_bytes() if path.exists() else None


def files_in(path):
    """The files of a folder by name, or None where there is none."""
    return {each.name: each.read_bytes() for each in sorted(path.iterdir())} if path.is_dir() else None


if __name__ == "__main__":
    given = ["serve", *sys.argv[1:]]
    file, folder = (read(Path(path)) for read, path in zip((octets_of, files_in), (given + ["-"] * 2)[5:7]))
    ended = serve(given, sys.stdin.buffer.read(), file, folder)
    sys.stdout.buffer.write(ended.output)
    sys.stderr.buffer.write(ended.error)
    sys.exit(ended.status)
