"""Refuses one allocation of the program in each run, from the first on until there are no more, and looks how it ends.

    python3 refused.py feed|replay|serve PROGRAM FOLDER [FIRST [STEP]]

A run ends as it does without that, or with status 5, `cgf: memory` and nothing on standard output. Of `serve` the
journal must stand then for a history that holds what was answered, and a run after it must go on from there. FOLDER has
refuse.so. It begins with the allocation FIRST, and goes on by STEP. The exit status is 1 where something is wrong.
"""

import os
import socket
import subprocess
import sys
import tempfile
import time
from pathlib import Path

TOP = Path(__file__).resolve().parents[2]
sys.path.insert(0, str(TOP / "tools" / "model"))

import serve_runs  # noqa: E402

INPUTS = {"feed": TOP / "examples" / "first.feed", "replay": TOP / "examples" / "lost-answer.replay"}
SMALL = b"reserve 30000\n"
DATAGRAM = bytes.fromhex("4EF0001000007E01FC000B010106000005A003800105")
SERVER, NODES, LENGTH, TURNS, PATIENCE = "127.0.0.1", ("127.0.1.1", "127.0.1.1", "127.0.1.2"), "100000", "10", 20
MOST = 100_000
MEMORY = (b"", 5, b"cgf: memory\n")
ENDS = {0: "as without", 5: "status 5"}


class Refusal:
    """The environment of a run whose allocation of a number fails, and whether it came to that."""

    def __init__(self, folder, number):
        self.told = Path(folder, "told")
        self.told.unlink(missing_ok=True)
        library = str(Path(folder, "refuse.so"))
        self.environment = {**os.environ, "LD_PRELOAD": library, "REFUSED": str(number), "REFUSED_TOLD": str(self.told)}

    def has_come(self):
        return self.told.exists()


def once(program, command, refusal):
    """What a feed or a replay writes, and how it ends."""
    text, given = SMALL + INPUTS[command].read_bytes(), [program, command, "-"]
    done = subprocess.run(given, input=text, env=refusal.environment, capture_output=True, check=False, timeout=60)
    return done.stdout, done.returncode, done.stderr


def wrong_of_job(program, command, refusal, whole):
    """What is wrong with such a run, and its status."""
    found = once(program, command, refusal)
    return "" if found in (whole, MEMORY) else f"{found}", found[1]


def asked(process, port):
    """How many of the nodes' datagrams, sent one after the other, were answered as filed."""
    end, count = time.monotonic() + PATIENCE, 0
    while not serve_runs.is_bound(port) and process.poll() is None and time.monotonic() < end:
        time.sleep(0.002)
    for node in NODES:
        with socket.socket(socket.AF_INET, socket.SOCK_DGRAM) as made:
            made.bind((node, 0))
            made.settimeout(0.1)
            try:
                made.sendto(DATAGRAM, (SERVER, port))
                count += made.recv(100)[7] in (128, 253)
            except OSError:
                pass
    return count


def served(program, folder, environment, turns, ask):
    """What a run of `serve` writes and how it ends, and how many datagrams it answered as filed."""
    port = serve_runs.free_port()
    given = [program, "serve", SERVER, str(port), turns, LENGTH, "area", "cdrs"]
    pipes = {"stdin": subprocess.PIPE, "stdout": subprocess.PIPE, "stderr": subprocess.PIPE}
    with subprocess.Popen(given, cwd=folder, env=environment, **pipes) as process:
        try:
            process.stdin.write(b"end\n")
            process.stdin.close()
        except BrokenPipeError:
            pass
        process.stdin = None
        count = asked(process, port) if ask else 0
        try:
            output, error = process.communicate(timeout=PATIENCE)
        except subprocess.TimeoutExpired:
            process.kill()
            return (*process.communicate(), -9), count
    return (output, error, process.returncode), count


def sealed(folder):
    """The sealed files, by name."""
    return {each.name: each.read_bytes() for each in Path(folder, "cdrs").glob("*.cdr")}


def wrong_of_serving(program, refusal):
    """What is wrong with a run of `serve` and one after it, and the first one's status."""
    with tempfile.TemporaryDirectory(dir=serve_runs.ROOM) as folder:
        Path(folder, "cdrs").mkdir()
        (output, error, status), answered = served(program, folder, refusal.environment, TURNS, True)
        before = sealed(folder)
        if status not in ENDS or status == 5 and (output, error) != (MEMORY[0], MEMORY[2]):
            return f"{status} {output} {error}", status
        if not refusal.has_come():
            return "" if answered == len(NODES) else f"{answered} answered", status
        again = served(program, folder, dict(os.environ), "1", False)[0]
        after = sealed(folder)
        filed = sum(octets.count(DATAGRAM[-5:]) for octets in after.values())
        lost = [name for name, octets in before.items() if after.get(name) != octets]
        # The second datagram is the first again.
        if again[2] or lost or not (answered + 1) // 2 <= filed <= 2:
            return f"and then {again}, {answered} answered and {filed} filed", status
        return "", status


def main(command, program, folder, first=1, step=1):
    program, ends, wrong = str(Path(program).resolve()), {}, 0
    whole = None if command == "serve" else once(program, command, Refusal(folder, 0))
    for number in range(first, MOST, step):
        refusal = Refusal(folder, number)
        tried = wrong_of_job(program, command, refusal, whole) if whole else wrong_of_serving(program, refusal)
        if not refusal.has_come():
            break
        ends[tried[1]] = ends.get(tried[1], 0) + 1
        if tried[0]:
            wrong += 1
            print(f"{command}, allocation {number}: {tried[0][:300]}", flush=True)
    told = ", ".join(f"{ENDS.get(status, status)}: {count}" for status, count in sorted(ends.items()))
    print(f"{command}: {sum(ends.values())} allocations refused, one in each run, {wrong} wrong; {told}")
    return wrong > 0 or not ends


if __name__ == "__main__":
    sys.exit(main(*sys.argv[1:4], *map(int, sys.argv[4:])))
