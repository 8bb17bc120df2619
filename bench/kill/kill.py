"""Kills a gateway again and again while nodes send to it, and looks for each record in the end: see ../kill.sh."""

import hashlib
import os
import random
import signal
import subprocess
import sys
import time
from collections import Counter
from pathlib import Path

from nodes import Nodes, Wrong

import show
from tear import tear

FOR_EVER = 1099511627776
LENGTH_OF_ALL, LENGTH_OF_EACH = 1000000, 20000
NODES, UNDER_WAY, NEW_PACKETS = 12, 4, 150
SETTINGS = b"limit records 20\nrule 86 * 1\nrule 87 * 2\nend\n"
STREAMS = ("00", "01", "02")
STORE_FAILED = 6
FAULTS = ("fdatasync", "fsync", "pwrite64", "/^rename", "unlink")


def sum_of(octets):
    return hashlib.sha256(octets).digest()


class Gateway:
    """The gateway's process, which is begun again and again on one area and one folder."""

    def __init__(self, program, work, port, length):
        self.program, self.work, self.port, self.length = program, work, port, length
        self.area, self.folder = work / "area", work / "cdrs"
        self.folder.mkdir()
        self.process, self.is_behind, self.sealed = None, False, {}
        # how long it took from a start to the first answer
        self.opening = 0.5
        # the place in the journal up to which sealed files may have its records
        self.known_end = 0

    def words(self, turns):
        where = ["127.0.0.1", str(self.port), str(turns), str(self.length), str(self.area), str(self.folder)]
        return [self.program, "serve", *where]

    def start(self, before=()):
        """Starts it, behind the words of a program that runs it."""
        self.is_behind = bool(before)
        (self.work / "settings").write_bytes(SETTINGS)
        with open(self.work / "settings", "rb") as settings, open(self.work / "told", "wb") as told:
            words = [*before, *self.words(FOR_EVER)]
            self.process = subprocess.Popen(words, stdin=settings, stdout=told, stderr=told)

    def runs(self):
        return self.process.poll() is None

    def told(self):
        return (self.work / "told").read_text()

    def ids(self):
        """The process, or what the program that runs it has begun: that program ends with it."""
        first = self.process.pid
        if not self.is_behind:
            return [first]
        return [int(word) for word in Path(f"/proc/{first}/task/{first}/children").read_text().split()]

    def kill(self):
        while self.process and self.runs():
            try:
                for each in self.ids():
                    os.kill(each, signal.SIGKILL)
            except OSError:
                pass  # it has ended
            time.sleep(0.001)

    def look(self):
        """The files that were sealed since the last look; from now on they must stand as they are."""
        new = [path for path in self.folder.glob("*.cdr") if path.name not in self.sealed]
        for path in new:
            self.sealed[path.name] = sum_of(path.read_bytes())
        return new

    def close(self):
        """Serves for one turn, so that what is open is closed and sealed: the line of counts."""
        with open(self.work / "settings", "rb") as settings:
            ran = subprocess.run(self.words(1), stdin=settings, capture_output=True, check=False)
        if ran.returncode != 0:
            raise Wrong(f"the last run ended by status {ran.returncode}: {ran.stderr.decode()}")
        return ran.stdout.decode().strip()


def records_of(name, octets):
    """The records of a sealed file, which must be whole and named by its number."""
    try:
        show.listing(octets)
    except show.Fault as fault:
        raise Wrong(f"{name} is no file: {fault}") from None
    if show.number(octets, 22, 4) != int(name[3:13]) or octets[26] not in (1, 3, 4, 5):
        raise Wrong(f"{name} says number {show.number(octets, 22, 4)} and reason {octets[26]}")
    return [cdr.octets for cdr in show.cdrs(octets, show.number(octets, 4, 4), False)]


def check(gateway, nodes, line):
    """What the files must be in the end: what they are, in a sentence."""
    found, numbers = Counter(), {stream: [] for stream in STREAMS}
    names = sorted(path.name for path in gateway.folder.iterdir())
    for name in names:
        octets = (gateway.folder / name).read_bytes()
        if not name.endswith(".cdr") or name[:2] not in STREAMS:
            raise Wrong(f"the folder has {name}")
        if gateway.sealed.get(name, sum_of(octets)) != sum_of(octets):
            raise Wrong(f"{name} was changed behind its seal")
        numbers[name[:2]].append(int(name[3:13]))
        found.update(records_of(name, octets))
    for missing in gateway.sealed.keys() - set(names):
        raise Wrong(f"{missing} is gone")
    for stream, have in numbers.items():
        if have != list(range(1, len(have) + 1)):
            raise Wrong(f"the numbers of stream {stream} have a gap: {have}")
    for record in nodes.due() - found.keys():
        raise Wrong(f"a record was answered and isn't filed: {record.hex()}")
    for record in found.keys() - nodes.asked():
        raise Wrong(f"a record is filed that wasn't asked for: {record.hex()}")
    for record in found - Counter(nodes.asked()):
        raise Wrong(f"a record is filed {found[record]} times: {record.hex()}")
    if f"records {found.total()} held 0 stranded 0" not in line:
        raise Wrong(f"{found.total()} records are filed, and the gateway says: {line}")
    return f"{found.total()} records in {len(names)} files, each once"


def faults(draw):
    """The words of a program that lets one call of the gateway fail, or all from it on."""
    call, error = draw.choice(FAULTS), draw.choice(("EIO", "ENOSPC"))
    when = f"{draw.randint(1, 40)}{draw.choice(('', '+'))}"
    words = f"strace -f -qq -o /dev/null -e trace={call} -e inject={call}:error={error}:when={when}"
    return words.split()


def live(gateway, nodes, until, budget, may_fail):
    """Lets nodes send to the gateway, which may have so many new packets, until a moment. One with calls that fail may
    end by itself."""
    while time.monotonic() < until:
        if not gateway.runs():
            if may_fail and gateway.process.returncode == STORE_FAILED:
                return
            raise Wrong(f"it ended by status {gateway.process.returncode}: {gateway.told()}")
        budget -= nodes.step(budget)


def opens(gateway, nodes, may_fail):
    """Lets nodes send until something is answered, and notes how long that takes."""
    begun, heard = time.monotonic(), nodes.heard()
    while nodes.heard() == heard and (gateway.runs() or not may_fail):
        live(gateway, nodes, time.monotonic() + 0.01, nodes.most, may_fail)
        if time.monotonic() > begun + 60:
            raise Wrong(f"nothing was answered for a minute: {gateway.told()}")
    gateway.opening = time.monotonic() - begun


def meet(gateway, nodes, draw, how):
    """Starts the gateway, and kills it while it opens, or a moment after its first answer."""
    may_fail = how == "faults"
    gateway.start(faults(draw) if may_fail else ())
    if draw.random() < 0.35:
        live(gateway, nodes, time.monotonic() + draw.random() * gateway.opening, NEW_PACKETS, may_fail)
    else:
        opens(gateway, nodes, may_fail)
        more = draw.choice((0.01, 0.05, 0.3)) * draw.random()
        live(gateway, nodes, time.monotonic() + more, NEW_PACKETS, may_fail)
    gateway.kill()
    nodes.hear()


def drain(gateway, nodes):
    """Lets nodes send until all is answered."""
    gateway.start()
    until, answers = time.monotonic() + 60, 0
    while not nodes.are_done():
        live(gateway, nodes, time.monotonic() + 0.05, 0, False)
        if nodes.answers > answers:
            until, answers = time.monotonic() + 60, nodes.answers
        if time.monotonic() > until:
            raise Wrong("a minute after the last answer something isn't answered")
    gateway.kill()


def run(gateway, nodes, draw, kills, how):
    """All of it: what is found, in a sentence."""
    for _ in range(kills):
        meet(gateway, nodes, draw, how)
        new = gateway.look()
        if how == "torn":
            tear(gateway, nodes, new, draw)
    drain(gateway, nodes)
    line = gateway.close()
    return f"{check(gateway, nodes, line)}; {line}"


def main(program, work, port, seed, kills, how):
    kills, port, begun = int(kills), int(port), time.monotonic()
    draw = random.Random(int(seed))
    gateway = Gateway(program, Path(work), port, LENGTH_OF_ALL + LENGTH_OF_EACH * kills)
    nodes = Nodes(NODES, UNDER_WAY, random.Random(draw.random()), ("127.0.0.1", port))
    try:
        told = run(gateway, nodes, draw, kills, how)
    except Wrong as wrong:
        print(f"wrong: {wrong}")
        return 1
    finally:
        gateway.kill()
    answers, failures = nodes.heard()
    print(f"{kills} kills in {time.monotonic() - begun:.0f} s, {answers} answers and {failures} failures: {told}")
    return 0


if __name__ == "__main__":
    sys.exit(main(*sys.argv[1:]))
