"""GTP' in captures, as tshark reads them."""

import ipaddress
import shutil
import subprocess
import tempfile
from collections import Counter
from typing import NamedTuple, Optional

import words

PORT = 3386
ECHO_REQUEST, ECHO_RESPONSE = 1, 2
FIELDS = ("frame.number", "frame.time_epoch", "ip.src", "ip.dst", "udp.srcport", "udp.dstport", "udp.length", "udp.payload")


class Unread(Exception):
    """The capture wasn't read to its end."""


class Frame(NamedTuple):
    """A datagram of a capture: the number of its frame, the second, its ends, and its octets."""

    number: int
    second: int
    source: str
    source_port: int
    receiver: str
    receiver_port: int
    octets: bytes


def gateway_of(word):
    """The address of a gateway, an IPv4 address."""
    try:
        return str(ipaddress.IPv4Address(word))
    except ValueError:
        raise words.Ended(f"{word} is no IPv4 address") from None


def _rows(path):
    if shutil.which("tshark") is None:
        raise words.Ended("tshark isn't there, which reads captures; on Debian: apt-get update && apt-get install -y tshark")
    command = ["tshark", "-n", "-r", path, "-Y", f"udp.port == {PORT} && !icmp && !icmpv6", "-T", "fields", "-E", "occurrence=l"]
    for field in FIELDS:
        command += ["-e", field]
    with tempfile.TemporaryFile("w+") as told:
        with subprocess.Popen(command, stdout=subprocess.PIPE, stderr=told, text=True) as tshark:
            for line in tshark.stdout:
                yield line.rstrip("\n").split("\t")
        if tshark.returncode != 0:
            told.seek(0)
            raise Unread(told.read().strip().rpartition("\n")[2])


def frames(path, left_out):
    """The datagrams to or from the port of GTP' over IPv4; counts what is left out by its reason. `-` is standard
    input."""
    for number, seconds, source, receiver, source_port, port, length, payload in _rows(path):
        octets = bytes.fromhex(payload.replace(":", ""))
        why = _left_out(source, length, octets)
        if why is not None:
            left_out[why] += 1
            continue
        ends = source, int(source_port), receiver, int(port)
        yield Frame(int(number), int(seconds.partition(".")[0]), *ends, octets)


def _left_out(source, length, octets):
    if not source:
        return "over IPv6"
    if not octets:
        return "no octets"
    return None if len(octets) == int(length) - 8 else "captured in part"


def _is_kind(octets, kind):
    return len(octets) >= 6 and octets[0] & 16 == 0 and octets[1] == kind


class Sorter:
    """Tells what of a capture was sent to a gateway, and what by it.

    Sent to a gateway is what went to the port of GTP'; and, where the gateway's address is known, the answer to an Echo
    Request that it sent from another port."""

    def __init__(self, gateway: Optional[str]):
        self.gateway = gateway
        self.asked_from = set()
        self.elsewhere = Counter()

    def is_received(self, frame):
        """Whether the gateway, or any, received a datagram."""
        if self.gateway is None:
            if frame.receiver_port != PORT and _is_kind(frame.octets, ECHO_RESPONSE):
                self.elsewhere[frame.receiver, frame.receiver_port] += 1
            return frame.receiver_port == PORT
        if frame.source == self.gateway and _is_kind(frame.octets, ECHO_REQUEST):
            self.asked_from.add(frame.source_port)
        if frame.receiver != self.gateway:
            return False
        if frame.receiver_port == PORT:
            return True
        return frame.receiver_port in self.asked_from and _is_kind(frame.octets, ECHO_RESPONSE)

    def is_sent(self, frame):
        """Whether the gateway sent a datagram from the port of GTP'."""
        return frame.source == self.gateway and frame.source_port == PORT
