"""Compares what `stream` does with what the model says: its status, what it writes, the octets of the journal's file
and the files of the folder.

    python3 against_stream.py FIRST COUNT PROGRAM

The cases are drawn from the numbers FIRST, FIRST + 1 and so on: messages of one node, most of them whole, in one
stream, now and then with an octet that is none of a message, or cut at its end; a journal and a folder that stand
already, or none. The program is given the stream by a pipe or, one time in five, by a connection over TCP whose peer
closes its side at the end, in pieces that are drawn too. The moments are read from the journal that the program left,
and must lie in the time of the run. Each case that differs is told by its number. The exit status is 1 where one
differs.
"""

import shutil
import socket
import subprocess
import sys
import tempfile
import time
from pathlib import Path
from typing import NamedTuple, Optional

import gateway
import journal
import serve
import serve_cases
import stream
import streams

ADDRESS, NODES = "127.0.0.1", ("10.0.1.1:40001", "10.0.1.2:1", "0.0.0.0:0", "255.255.255.255:65535")
ROOM = Path("/dev/shm") if Path("/dev/shm").is_dir() else None


class Case(NamedTuple):
    """A case: the words but for the paths, the stream and its pieces, what stands in the file and the folder, and
    whether the stream comes by a connection."""

    words: tuple
    octets: bytes
    pieces: list
    file: Optional[bytes]
    folder: Optional[dict]
    is_sent: bool


def case(number):
    """Draws a case by a number."""
    maker = serve_cases.Maker(number)
    octets = bytearray()
    for _ in range(maker.pick(0, 1, 2, 5, 10, 20, 40)):
        message = maker.traffic.datagram()
        octets += message if maker.is_rare(0.9) else maker.traffic.mutated(message)
    if maker.is_rare(0.1):
        octets.append(maker.pick(0x5E, 0x2E, 0x0F, 0x4E, 0x40, 0x6E, 255))
        octets += maker.random.randbytes(maker.pick(0, 1, 30))
    if octets and maker.is_rare(0.1):
        del octets[-maker.random.randint(1, min(30, len(octets))) :]
    sizes, left = [], len(octets)
    most = maker.pick(1, 7, 44, 1_000, 100_000)
    while left > 0 and len(sizes) < 200:
        sizes.append(maker.random.randint(1, min(most, left)))
        left -= sizes[-1]
    if left > 0:
        sizes.append(left)
    file = maker.file() if maker.is_rare(0.4) else None
    folder = maker.folder(b"end\n", file) if file is not None else {}
    words = (ADDRESS, maker.pick(*NODES), str(maker.length))
    return Case(words, bytes(octets), sizes, file, folder, maker.is_rare(0.2))


def pieces_of(drawn):
    """The pieces of a case's stream."""
    at = 0
    for size in drawn.pieces:
        yield drawn.octets[at : at + size]
        at += size


def free_port():
    """A port that nobody has."""
    with socket.socket() as held:
        held.bind(("127.0.0.1", 0))
        return held.getsockname()[1]


def connected(port, process):
    """A connection to the program, once it accepts, or None where it ends first."""
    while process.poll() is None:
        try:
            return socket.create_connection(("127.0.0.1", port))
        except ConnectionRefusedError:
            time.sleep(0.002)
    return None


def sent(drawn, port, process):
    """Sends the stream of a case by a connection, a piece at a time, closes this side, and gives what comes back."""
    peer = connected(port, process)
    if peer is None:
        return b""
    came = bytearray()
    with peer:
        peer.setsockopt(socket.IPPROTO_TCP, socket.TCP_NODELAY, 1)
        try:
            for piece in pieces_of(drawn):
                peer.sendall(piece)
            peer.shutdown(socket.SHUT_WR)
        except OSError:
            pass
        try:
            while octets := peer.recv(65_536):
                came += octets
        except ConnectionResetError:
            pass
    return bytes(came)


def piped(drawn, process):
    """Writes the stream of a case to the program's standard input, a piece at a time."""
    try:
        for piece in pieces_of(drawn):
            process.stdin.write(piece)
    except BrokenPipeError:
        pass


def run(drawn, program):
    """What the program does in a case."""
    top = Path(tempfile.mkdtemp(prefix="against-stream-", dir=ROOM))
    try:
        area, cdrs = top / "area", top / "cdrs"
        if drawn.file is not None:
            area.write_bytes(drawn.file)
        if drawn.folder is not None:
            cdrs.mkdir()
            for name, octets in drawn.folder.items():
                (cdrs / name).write_bytes(octets)
        pipes = {"stdin": subprocess.PIPE, "stdout": subprocess.PIPE, "stderr": subprocess.PIPE}
        port = free_port() if drawn.is_sent else 0
        source = f"tcp:127.0.0.1:{port}" if drawn.is_sent else "-"
        words = ["stream", *drawn.words, "area", "cdrs", source]
        process = subprocess.Popen([program, *words], cwd=top, bufsize=0, **pipes)
        if drawn.is_sent:
            came = sent(drawn, port, process)
        else:
            piped(drawn, process)
            came = b""
        output, error = process.communicate(timeout=60)
        output = came + output
        last = b"".join(error.splitlines(keepends=True)[-1:])
        return serve.Ended(process.returncode, output, last, serve.octets_of(area), serve.files_in(cdrs))
    finally:
        shutil.rmtree(top)


def moments_of(drawn, found):
    """The moment of each message: that of its entry, or where it has none that of the last entry before it; of the last
    message that of the Close, where there is one."""
    said = streams.words_of(["stream", *drawn.words, "area", "cdrs", "-"])
    before = serve.area_of(drawn.file, said.length)
    try:
        history = journal.opened(before, said.ip)[1]
        entries = iter(journal.opened(found.area, said.ip)[1][len(history) :])
    except (journal.NotOurs, TypeError):
        return []
    served, moments, moment = serve.Served(before, said.ip), [], 0
    if len(served.history) > len(history):
        next(entries, None)
    for message in stream.frames(drawn.octets)[0]:
        entry = gateway.answer(served.history, said.node, message, moment, said.length)[2]
        moment = next(entries, None).moment if entry is not None else moment
        streams.answered(served, said.node, message, moment)
        moments.append(moment)
    closed = next(entries, None)
    return moments[:-1] + [closed.moment] if moments and closed is not None else moments


def differs(number, program):
    """Whether what the program does in a case isn't what it should do."""
    drawn, begun = case(number), int(time.time())
    found = run(drawn, program)
    moments = moments_of(drawn, found)
    wanted = streams.run(["stream", *drawn.words, "area", "cdrs", "-"], drawn.octets, drawn.file, drawn.folder, moments)
    is_timely = all(moment == 0 or moment >= begun for moment in moments) or drawn.file is not None
    # Where the program ends with octets of a connection unread, the system may drop replies that are on their way.
    is_cut = drawn.is_sent and wanted.status != 0 and wanted.output.startswith(found.output)
    is_same = found.output == wanted.output or is_cut
    return not (is_timely and is_same and found._replace(output=b"")[:5] == wanted._replace(output=b"")[:5])


def main(first, count, program):
    differing = [number for number in range(first, first + count) if differs(number, program)]
    for number in differing:
        print(f"{number} differs")
    print(f"{len(differing)} of {count} cases of stream differ")
    return bool(differing)


if __name__ == "__main__":
    sys.exit(main(int(sys.argv[1]), int(sys.argv[2]), sys.argv[3]))
