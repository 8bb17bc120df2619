"""Words for what stands in datagrams, reports and files, for people; and how the tools here take files and end.

Nothing here decides anything: the readers are those of the plain models, in tools/model.
"""

import os
import pathlib
import signal
import stat
import sys

MODEL = pathlib.Path(__file__).resolve().parent.parent / "model"
sys.path.insert(0, str(MODEL))
sys.dont_write_bytecode = True

import ber  # noqa: E402  (the readers stand in the folder of the models)
import wire  # noqa: E402

KINDS = {
    1: "Echo Request",
    2: "Echo Response",
    3: "Version Not Supported",
    4: "Node Alive Request",
    5: "Node Alive Response",
    6: "Redirection Request",
    7: "Redirection Response",
    240: "Data Record Transfer Request",
    241: "Data Record Transfer Response",
}
COMMANDS = {1: "send", 2: "send, possibly duplicated", 3: "cancel", 4: "release"}
CAUSES = {
    59: "system failing",
    60: "transmit buffers becoming full",
    61: "receive buffers becoming full",
    62: "another node going down",
    63: "this node going down",
    128: "accepted",
    177: "CDR decoding error",
    193: "invalid message format",
    199: "no resources available",
    201: "mandatory element incorrect",
    202: "mandatory element missing",
    204: "system failure",
    252: "possible duplicate already fulfilled",
    253: "already fulfilled",
    254: "numbers of released or cancelled packets incorrect",
    255: "not fulfilled",
}
DROPS = {
    "Short": "fewer octets than a header",
    "NotPrime": "not GTP' but GTP",
    "Cut": "fewer octets than the header says",
    "UnknownType": "a type of message that isn't known",
    "Stray": "a message that no gateway asks for or takes",
    "Malformed": "elements that are no message of its type",
    "NoRoom": "no room in the journal, or no place for another node",
    "Device": "the journal's device failed",
}
REASONS = {
    0: "normal",
    1: "size limit",
    2: "open-time limit",
    3: "maximum number of CDRs",
    4: "manual intervention",
    5: "release, version or encoding change",
    128: "abnormal",
    129: "file system error",
    130: "storage exhausted",
    131: "integrity error",
}


class Ended(Exception):
    """What ends a tool: a line for standard error, and the exit status, or None for that of the tool's faults."""

    def __init__(self, line, status=None):
        super().__init__(line)
        self.line = line
        self.status = status


def cause(number):
    """A cause with its number: `253 already fulfilled`."""
    return f"{number} {CAUSES.get(number, 'unknown')}"


def octets_of(path):
    """All octets of a file; `-` is standard input. A device isn't read: it may have no end."""
    try:
        if path == "-":
            if sys.stdin is None:
                raise Ended("standard input is closed")
            return sys.stdin.buffer.read()
        kind = os.stat(path).st_mode
        if stat.S_ISCHR(kind) or stat.S_ISBLK(kind):
            raise Ended(f"{path}: this is a device, and no file")
        return pathlib.Path(path).read_bytes()
    except OSError as fault:
        raise Ended(f"{path}: {fault.strerror or fault}") from None


def text_of(path):
    """The lines of a file of text."""
    try:
        return octets_of(path).decode().splitlines()
    except UnicodeDecodeError:
        raise Ended(f"{path}: this is no text") from None


def numbers(listed):
    """Sequence numbers as words."""
    if not listed:
        return "no numbers"
    shown = ", ".join(str(number) for number in listed[:8])
    return ("number " if len(listed) == 1 else "numbers ") + shown + (", .." if len(listed) > 8 else "")


def _records(packet):
    if packet.is_empty():
        return "an empty packet: a test of the number"
    count = len(packet.records)
    return f"{count} record{'s' if count != 1 else ''} of format {packet.format}, version {packet.version:04X}"


def _transfer(number, body):
    command, said = body
    if command in (wire.RELEASE, wire.CANCEL):
        return f"request {number}: {COMMANDS[command]} {numbers(said)}"
    return f"request {number}: {COMMANDS[command]}, {_records(said)}"


def datagram(octets, role):
    """What a datagram says, as an end of the path reads it: `gateway` or `node`."""
    found = wire.reading(role, octets)
    if found[0] == "drop":
        return f"dropped: {DROPS[found[1]]}"
    if found[0] == "version":
        return f"a message of version {octets[0] >> 5} of GTP'"
    if found[0] == "refused":
        return f"{KINDS[found[2]]} {found[3]}, which is refused by its form: {cause(found[1])}"
    _, kind, number, body = found
    if kind == wire.TRANSFER_REQUEST:
        return _transfer(number, body)
    if kind == wire.TRANSFER_RESPONSE:
        return f"answer to {numbers(body[1])}: {cause(body[0])}"
    if kind == wire.ECHO_RESPONSE:
        return f"{KINDS[kind]} {number}, restart counter {body}"
    if kind in (wire.REDIRECTION_REQUEST, wire.REDIRECTION_RESPONSE):
        told = body if kind == wire.REDIRECTION_RESPONSE else body[0]
        return f"{KINDS[kind]} {number}: {cause(told)}"
    return f"{KINDS[kind]} {number}"


def reply(octets):
    """What a gateway's reply says. Those of gateways are read as a node reads them, but for what nodes don't take."""
    if len(octets) >= 6 and octets[1] in KINDS and octets[1] not in (wire.TRANSFER_RESPONSE,):
        number = int.from_bytes(octets[4:6], "big")
        if octets[1] == wire.ECHO_RESPONSE and len(octets) >= 8:
            return f"{KINDS[octets[1]]} {number}, restart counter {octets[7]}"
        return f"{KINDS[octets[1]]} {number}"
    return datagram(octets, "node")


def run(name, main, usage, faulty=1):
    """Runs a tool: a fault becomes a line on standard error with the status `faulty`, where the fault has none of its
    own; a closed pipe ends the tool in silence. `--help` alone prints the usage."""
    if sys.stdout is None:
        print(f"{name}: standard output is closed", file=sys.stderr)
        sys.exit(faulty)
    if sys.argv[1:] in (["--help"], ["-h"]):
        main = lambda given: print(usage.strip()) or 0  # noqa: E731  (the usage is all that is asked for)
    try:
        status = main(sys.argv[1:])
        sys.stdout.flush()
    except Ended as ended:
        print(usage.strip() if ended.line is None else f"{name}: {ended.line}", file=sys.stderr)
        status = faulty if ended.status is None else ended.status
    except BrokenPipeError:
        os.dup2(os.open(os.devnull, os.O_WRONLY), sys.stdout.fileno())
        status = 128 + signal.SIGPIPE
    except OSError as fault:
        print(f"{name}: {fault.filename or 'standard output'}: {fault.strerror or fault}", file=sys.stderr)
        status = faulty
    except KeyboardInterrupt:
        status = 128 + signal.SIGINT
    sys.exit(status)


def wrong_words():
    """The words are others than the usage has."""
    return Ended(None)
