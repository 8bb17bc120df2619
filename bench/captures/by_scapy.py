"""Writes a capture by scapy, another program than this project's: `python3 by_scapy.py OUT.pcap`.

The gateway is 10.0.0.1. The P-GW 10.0.1.1 sends from port 3386 and makes its path known first; the S-GW 10.0.1.2 sends
from a port of its own, in frames with a VLAN tag, and one of its datagrams in fragments, of which the last comes first.
Among these there is what a script can't have or shouldn't.
"""

import sys

from scapy.all import ICMP, IP, TCP, UDP, Dot1Q, Ether, IPv6, Raw, fragment, wrpcap

PGW, SGW, GATEWAY, PORT = "10.0.1.1", "10.0.1.2", "10.0.0.1", 3386
BEGIN = 1709164800.25
LINK = Ether(src="02:00:00:00:00:01", dst="02:00:00:00:00:02")


def octets(text):
    return Raw(bytes.fromhex(text))


def over_udp(source, port, destination, to, text):
    return IP(src=source, dst=destination) / UDP(sport=port, dport=to) / octets(text)


def asked(text):
    """A message of the P-GW."""
    return LINK / over_udp(PGW, PORT, GATEWAY, PORT, text)


def told(text):
    """A message to the P-GW."""
    return LINK / over_udp(GATEWAY, PORT, PGW, PORT, text)


def tagged(datagram):
    return LINK / Dot1Q(vlan=33) / datagram


RECORDS = "".join(f"0009BF4E068001549401{number:02X}" for number in range(1, 7))
LARGE = over_udp(SGW, 40001, GATEWAY, PORT, "4EF0004B0000" + "7E01FC0046" + "06010800" + RECORDS)
QUOTED = bytes(over_udp(GATEWAY, PORT, "10.0.0.9", PORT, "4E0100000009"))
CUT = bytes(asked("4EF0001400017E01FC000F010108000009BF4F06800155940102"))


def frames():
    """The frames, each with how many seconds after the one before it was captured."""
    yield 0, asked("4E0400070000FB00040A000101")
    yield 0.01, told("4E0100000000")
    yield 0.01, asked("4E02000200000E05")
    yield 0.01, told("4E0500000000")
    yield 1, asked("4EF0001400007E01FC000F010108000009BF4F06800155940101")
    yield 0.01, told("4EF1000700000180FD00020000")
    yield 0.5, tagged(over_udp(SGW, 40001, GATEWAY, PORT, "4E01000000FF"))
    for part in reversed(fragment(LARGE, fragsize=64)):
        yield 0.1, tagged(part)
    yield 0.1, LINK / IP(src="10.0.0.9", dst=GATEWAY) / ICMP(type=3, code=3) / Raw(QUOTED)
    yield 0.1, LINK / IPv6(src="2001:db8::1", dst="2001:db8::2") / UDP(sport=40001, dport=PORT) / octets("4E0100000001")
    yield 0.1, LINK / IP(src=SGW, dst=GATEWAY) / TCP(sport=40001, dport=PORT)
    yield 0.1, LINK / over_udp(SGW, 40001, GATEWAY, 53, "4E0100000002")
    yield 0.1, LINK / IP(src=SGW, dst=GATEWAY) / UDP(sport=40001, dport=PORT)
    part = Ether(CUT[:60])
    part.wirelen = len(CUT)
    yield 0.1, part
    yield -3, asked("4EF0001400017E01FC000F010108000009BF4F06800155940102")
    yield 60, asked("4EF0001400017E01FC000F010108000009BF4F06800155940102")


def main(path):
    now, packets = BEGIN, []
    for later, packet in frames():
        now += later
        packet.time = now
        packets.append(packet)
    wrpcap(path, packets)


if __name__ == "__main__":
    main(sys.argv[1])
