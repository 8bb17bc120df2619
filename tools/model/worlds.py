"""Random worlds with losses, repeats, restarts, stops and failing devices: after each line each record is looked for in
what all gateways filed. Each packet whose records aren't filed once is told, with the number of its world, and the exit
status is 1 where there is one.

    python3 worlds.py FIRST COUNT
"""

import sys
from collections import Counter

from once import violations
from replay_scripts import Replay


class Watched(Replay):
    """A random replay of which what it files is looked at after each line."""

    def __init__(self, seed):
        super().__init__(seed)
        self.found = set()

    def add(self, *line):
        goes_on = super().add(*line)
        self.found.update(violations(self.world))
        return goes_on


def main(first, count):
    seen, wrong = Counter(), False
    for number in range(first, first + count):
        watched = Watched(number)
        watched.play()
        seen["lines"] += len(watched.lines)
        seen["resolved"] += sum(packet.was_resolved for node in watched.world.nodes for packet in node.ever)
        seen.update(form for form, *_ in watched.lines if form in ("arm", "fail", "stop", "halt"))
        for gateway in watched.world.gateways:
            seen.update(entry.kind for entry in gateway.history[: gateway.firm])
        for each in sorted(watched.found):
            print(f"world {number}: {each}")
            wrong = True
    print(f"{count} worlds:", ", ".join(f"{seen[each]} {each}" for each in sorted(seen)))
    return wrong


if __name__ == "__main__":
    sys.exit(main(int(sys.argv[1]), int(sys.argv[2])))
