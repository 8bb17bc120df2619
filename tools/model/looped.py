"""What a loop ran, and how it ended: the end is found anew from the nodes' packets and the gateways' journals.

    python3 looped.py PROGRAM FIRST COUNT GATEWAYS NODES PACKETS TURNS

lets PROGRAM (bench/loops) run so many loops, and compares the end of each.
"""

import subprocess
import sys

import audits
import gateway
import journal
from files import items
from node import Copy

FIRST_GATEWAY = 127 << 24 | 11


class Packet:
    """A packet as a loop left it."""

    def __init__(self, number, phase, words):
        self.packet, self.is_done = number, phase == "Done"
        self.was_resolved = phase in ("Resolved", "Done")
        self.copies = [Copy(*pair) for pair in zip(words[::2], words[1::2])]


class Left:
    """A node as a loop left it: its address and restart counter, its counts and its packets."""

    def __init__(self, address, counter, *counts):
        self.address, self.counter, self.counts = address, counter, counts
        self.ever = []

    @property
    def open(self):
        return [packet for packet in self.ever if not packet.is_done]


def history_of(length, octets, place):
    """The history for which the front of an area stands."""
    assert octets.startswith(journal.header(length, FIRST_GATEWAY + place)), "another's journal"
    return journal.read(octets.ljust(length, b"\0"))[0]


def wanted(histories, nodes, packets, turns):
    """The end that is printed of such a loop."""
    word, *more = audits.end_of(histories, nodes, packets)
    if word == "unfinished":
        place, number, count = more
        return f"end unfinished {turns} {nodes[place].address} {number} {count}"
    if word == "wrong":
        place, number, count = more
        return f"end wrong {nodes[place].address} {number} {count} {audits.WANTED}"
    sums = "".join(
        f" node {len(node.ever)} {sum(p.was_resolved for p in node.ever)} {sum(p.is_done for p in node.ever)}"
        for node in nodes
    )
    for history in histories:
        records = sum(item.mark is None for item in items(history))
        held, stranded = len(gateway.held(history)), gateway.stranded(history)
        sums += f" gateway {len(history)} {records} {held} {stranded}"
    return "end fine" + sums


def ends_of(lines):
    """Each end that is printed, with the nodes and the histories that are printed after it."""
    ends = []
    for line in lines:
        form, *words = line.split()
        if form == "end":
            ends.append((line, [], []))
        elif form == "node":
            ends[-1][1].append(Left(*map(int, words)))
        elif form == "packet":
            number, phase, *copies = words
            ends[-1][1][-1].ever.append(Packet(int(number), phase, list(map(int, copies))))
        elif form == "area":
            place = len(ends[-1][2])
            ends[-1][2].append(history_of(int(words[0]), bytes.fromhex(words[1]), place))
    return ends


def main(program, first, count, *setup):
    line = " ".join(map(str, ("told", first, count, *setup)))
    ran = subprocess.run([program], input=line.encode(), capture_output=True, check=True)
    gateways, nodes, packets, turns = setup
    ends, differing, kinds = ends_of(ran.stdout.decode().splitlines()), 0, {}
    for seed, (told, left, histories) in enumerate(ends, first):
        assert (len(left), len(histories)) == (nodes, gateways)
        assert all(node.counts[0] == len(node.ever) and node.counter == 1 for node in left)
        found = wanted(histories, left, packets, turns)
        kinds[told.split()[1]] = kinds.get(told.split()[1], 0) + 1
        if told != found:
            differing += 1
            print(f"{seed} differs: {told}\n    where is wanted {found}")
    print(f"{len(ends)} loops, {kinds}: {differing} differ")
    return differing > 0 or len(ends) != count


if __name__ == "__main__":
    sys.exit(main(sys.argv[1], *map(int, sys.argv[2:])))
