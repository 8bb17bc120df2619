"""Runs of `serve` beside the model: the program in a folder of its own, the sockets of the nodes, and what both say."""

import shutil
import socket
import subprocess
import tempfile
import time
from pathlib import Path

import journal
import serve
import serve_cases

SILENT_SECONDS = 0.02
PATIENCE, SPARE_TURNS = 5.0, 40
ROOM = Path("/dev/shm") if Path("/dev/shm").is_dir() else None


class Void(Exception):
    """A run that ended before all was sent: it is made anew."""


class Place:
    """A folder of its own for a run, with the journal's file and the folder of the CDR files."""

    def __init__(self, case):
        self.top = Path(tempfile.mkdtemp(prefix="against-serve-", dir=ROOM))
        self.area, self.files = self.top / "area", self.top / "cdrs"
        if case.file is not None:
            self.area.write_bytes(case.file)
        if case.folder is not None:
            self.files.mkdir()
            for name, octets in case.folder.items():
                (self.files / name).write_bytes(octets)

    def start(self, program, words, text):
        """Starts the program, which has read its settings then or will."""
        given = [program, "serve", *words, "area", "cdrs"]
        pipes = {"stdin": subprocess.PIPE, "stdout": subprocess.PIPE, "stderr": subprocess.PIPE}
        process = subprocess.Popen(given, cwd=self.top, **pipes)
        try:
            process.stdin.write(text)
            process.stdin.close()
        except BrokenPipeError:
            pass
        process.stdin = None
        return process

    def ended(self, process, replies):
        """How a run has ended; of standard error the last line alone."""
        output, error = process.communicate(timeout=60)
        last = b"".join(error.splitlines(keepends=True)[-1:])
        left = serve.octets_of(self.area), serve.files_in(self.files)
        return serve.Ended(process.returncode, output, last, *left, replies)

    def remove(self):
        shutil.rmtree(self.top)


def free_port():
    """A port of the server's address that nobody has."""
    with socket.socket(socket.AF_INET, socket.SOCK_DGRAM) as made:
        made.bind((serve_cases.SERVER, 0))
        return made.getsockname()[1]


def is_bound(port):
    """Whether a socket has a port of the server's address."""
    wanted = f"0100007F:{port:04X}"
    return any(line.split()[1] == wanted for line in Path("/proc/net/udp").read_text().splitlines())


def await_bound(process, port):
    """Waits until the program can be sent to."""
    end = time.monotonic() + 20
    while not is_bound(port):
        if process.poll() is not None or time.monotonic() > end:
            raise Void
        time.sleep(0.002)


class Nodes:
    """The sockets of the nodes of a case, by a node's address and their place."""

    def __init__(self, heard, port):
        self.sockets, self.server = {}, (serve_cases.SERVER, port)
        for sender in dict.fromkeys(sender for sender, _ in heard):
            made = socket.socket(socket.AF_INET, socket.SOCK_DGRAM)
            made.bind((".".join(str(sender[0] >> shift & 255) for shift in (24, 16, 8, 0)), 0))
            made.settimeout(PATIENCE)
            self.sockets[sender] = made

    def address(self, sender):
        """The address and the port of a sender."""
        return sender[0], self.sockets[sender].getsockname()[1]

    def ask(self, sender, octets, has_reply):
        """Sends a datagram; its reply where one should come, and None where none comes."""
        self.sockets[sender].sendto(octets, self.server)
        return self.heard(sender) if has_reply else None

    def heard(self, sender):
        """The next datagram that a sender receives, with the address that it comes from where it isn't the server's;
        None where none comes."""
        try:
            octets, address = self.sockets[sender].recvfrom(65_536)
        except OSError:
            return None
        return octets if address == self.server else (octets, address)

    def rest(self):
        """What came that nobody waited for."""
        for made in self.sockets.values():
            made.setblocking(False)
        return [more for sender in self.sockets for more in iter(lambda: self.heard(sender), None)]

    def close(self):
        for made in self.sockets.values():
            made.close()


def entries_of(area):
    """The entries of an area's journal."""
    return journal.opened(area, serve_cases.ANYWHERE)[1]


class Run:
    """A run of the program in a place, with the sockets of its nodes. It has more turns than datagrams, since some pass
    without one; the turns of the case say how many times as many."""

    def __init__(self, program, case):
        self.case, self.port, self.begun = case, free_port(), int(time.time())
        turns = 2 * len(case.heard) + SPARE_TURNS * int(case.words[2])
        self.words = (case.words[0], str(self.port), str(turns), case.words[3])
        self.place, self.nodes = Place(case), Nodes(case.heard, self.port)
        self.process = self.place.start(program, self.words, case.text)
        self.area = serve.area_of(case.file, int(case.words[3]))
        self.model = serve.Served(self.area, serve_cases.ANYWHERE)
        self.heard, self.replies = [], []

    def tell(self, sender, octets):
        """Takes a datagram down as heard; the model's reply to it, or None."""
        self.heard.append(serve.Datagram(self.nodes.address(sender), octets))
        return self.model.hear(self.heard[-1])

    def ask_all(self, asked):
        """Sends these datagrams, each after the reply to the one before. Behind one that has none it waits for a
        moment: the next may be for another session, which would be quicker."""
        await_bound(self.process, self.port)
        for sender, octets in asked:
            wants_reply = self.tell(sender, octets) is not None
            self.replies.append(self.nodes.ask(sender, octets, wants_reply))
            if not wants_reply:
                time.sleep(SILENT_SECONDS)
        if self.process.poll() is not None:
            raise Void

    def ended(self):
        """How the run ended, with what nobody waited for behind the replies."""
        found = self.place.ended(self.process, self.replies)
        found.replies.extend(self.nodes.rest())
        return found

    def dated(self, found):
        """The datagrams with the moments of the journal that the program left; one without an entry has none, but the
        last one that of the last entry."""
        before, entries = entries_of(self.area), entries_of(found.area)
        moments = {entry.serial: entry.moment for entry in entries[len(before) :]}
        least = max([self.begun, *(entry.moment for entry in before[-1:])])
        if any(not least <= moment <= max(time.time(), least) for serial, moment in moments.items() if serial):
            raise ValueError("a moment isn't in the time of the run")
        heard = [each._replace(moment=moments.get(serial, 0)) for serial, each in enumerate(self.heard, 1)]
        return [*heard[:-1], *(each._replace(moment=entries[-1].moment) for each in heard[-1:])]

    def wanted(self, found):
        """How it should have ended, by the moments that are found."""
        words, case = ["serve", *self.words, "area", "cdrs"], self.case
        return serve.serve(words, case.text, case.file, case.folder, self.dated(found))

    def leave(self):
        """Ends what is left of the run."""
        if self.process.poll() is None:
            self.process.kill()
            self.process.communicate()
        self.nodes.close()
        self.place.remove()
