"""What a failing machine may leave besides a killed process: a journal and files that are torn where no sync made them
durable (docs/formats/journal.md)."""

import mmap
import os

from nodes import Wrong

HEADER, BATCH_HEADER, GATE = 32, 5, 0xA5
FILE, HOLD, SEAL, RELEASE, CANCEL = 3, 4, 5, 6, 7
FIRST_NUMBER = 65536


def batches(area):
    """The places of a journal's batches, and that of the closed gate behind them."""
    places, at = [], HEADER
    while area[at] == GATE:
        places.append(at)
        at += BATCH_HEADER + int.from_bytes(area[at + 1 : at + BATCH_HEADER], "big")
    return places, at


def entries(octets):
    """The kind, the node and the numbers of each entry of a batch that names a number, and its packet."""
    at = 0
    while at < len(octets):
        end = at + int.from_bytes(octets[at : at + 4], "big")
        kind, node = octets[at + 4], octets[at + 25 : at + 29]
        if kind in (FILE, HOLD, SEAL):
            yield kind, node, [int.from_bytes(octets[at + 29 : at + 37], "big")], octets[at + 37 : end]
        elif kind in (RELEASE, CANCEL):
            yield kind, node, [int.from_bytes(octets[each : each + 8], "big") for each in range(at + 33, end, 8)], b""
        at = end


def is_answered(octets, nodes):
    """Whether a node knows by an answer that a batch is durable."""
    by_address = {node.address: node for node in nodes.all}
    for kind, address, numbers, _ in entries(octets):
        sort = "named" if kind in (RELEASE, CANCEL) else "own"
        if any((sort, number - FIRST_NUMBER) in by_address[address].answered for number in numbers):
            return True
    return False


def shut(draw):
    """An octet that is no open gate."""
    return draw.choice([octet for octet in range(256) if octet != GATE])


def tear_area(area, gateway, nodes, new, draw):
    """Shuts the gate of a last batch that nobody knows of, and writes anything behind the journal's end."""
    places, end = batches(area)
    if new:
        gateway.known_end = end
    last = places[-1] if places else 0
    if last >= max(gateway.known_end, HEADER) and draw.random() < 0.7:
        if not is_answered(area[last + BATCH_HEADER : end], nodes):
            # the sync behind its gate was never done
            end = last
    behind = min(draw.choice((0, 1, 5, 300, 5000)), len(area) - end - 1)
    area[end] = shut(draw)
    area[end + 1 : end + 1 + behind] = draw.randbytes(behind)


def tear(gateway, nodes, new, draw):
    """Tears the journal behind what is durable, and the files that aren't sealed."""
    if gateway.area.exists() and gateway.area.stat().st_size > HEADER:
        with open(gateway.area, "r+b") as file, mmap.mmap(file.fileno(), 0) as area:
            if area[:8] == b"CGFJRNL1":
                tear_area(area, gateway, nodes, new, draw)
            elif area[0] != 0:
                raise Wrong("the journal has no header")
    for part in gateway.folder.glob("*.part"):
        os.truncate(part, draw.randrange(part.stat().st_size + 1))
        part.write_bytes(part.read_bytes() + draw.randbytes(draw.choice((0, 9, 200))))
