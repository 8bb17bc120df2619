"""The command `loopback` over links that carry nothing: no packet comes to be done, so each node takes all its turns."""

import script

# how many gateways, nodes, packets of each node and turns there may be
RANGES = (1, 4), (1, 8), (1, 1_000), (1, 10_000_000)


def run(words):
    """What is written by these words behind the command's name, the status, what is said of it, and what is told of the
    books and the nodes that are handed back."""
    try:
        gateways, nodes, packets, turns = (
            script.number(*of)(word.encode()) for of, word in zip(RANGES, words, strict=True)
        )
    except (ValueError, script.Wrong):
        return b"", 1, b"cgf: words\n", b""
    told = b"looped: books %d, nodes %d\n" % (gateways, nodes)
    return b"", 9, b"cgf: unfinished %d 1.1 %d\n" % (turns, nodes * packets), told
