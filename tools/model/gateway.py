"""A gateway as a function of its history: what it answers a datagram, and which entry the answer calls for.

Nothing is kept but the list of entries: each question scans it.
"""

from typing import NamedTuple, Optional

import wire

DEFAULT_RESERVE = 16_777_216
MOST_NODES, MOST_COPIES = 64, 65_536
LEAST_NUMBER, NUMBER_BOUND = 32_768, 2**63
HEAD, HELD_PROMISE, CLOSE_PROMISE = 33, 76, 30


class Entry(NamedTuple):
    """An entry: its moment, its kind (Start, Path, File, Hold, Seal, Release, Cancel, Tick or Close), and what it
    names: a node by its address, absolute numbers, a packet, a port and a restart counter; and who made it: a session
    and the serial of its job."""

    moment: int
    kind: str
    node: Optional[int] = None
    numbers: tuple = ()
    packet: Optional[wire.Packet] = None
    port: int = 0
    counter: int = 0
    session: int = 0
    serial: int = 0

    def cost(self):
        """Its octets in the journal with the five of a batch of its own."""
        if self.kind == "Path":
            return 30 + 7
        if self.kind in ("File", "Hold"):
            return 30 + 12 + len(self.packet.value)
        if self.kind == "Seal":
            return 30 + 12
        if self.kind in ("Release", "Cancel"):
            return 30 + 8 + 8 * len(self.numbers)
        return 30


GIVEN = {"File": "Filed", "Seal": "Sealed", "Hold": "Held", "Release": "Released", "Cancel": "Cancelled"}

# The answer to a packet by the state of its number: a cause, and the entry where one is called for.
TABLE = {
    "send": {"Fresh": (128, "File"), "Filed": 253, "Sealed": 255, "Held": 252, "Released": 252, "Cancelled": 252},
    "possible": {"Fresh": (128, "Hold"), "Filed": 253, "Sealed": 255, "Held": 252, "Released": 252, "Cancelled": 252},
    "empty": {"Fresh": (128, "Seal"), "Filed": 253, "Sealed": 128, "Held": 252, "Released": 252, "Cancelled": 252},
}


def epoch(history, node):
    """How many Path entries of a node stand in a history."""
    return sum(entry.kind == "Path" and entry.node == node for entry in history)


def present_path(history, node):
    """The Path that opened a node's present epoch, or None."""
    paths = [entry for entry in history if entry.kind == "Path" and entry.node == node]
    return paths[-1] if paths else None


def present(history, node):
    """A node's entries of its present epoch, without the Path."""
    mine = [entry for entry in history if entry.node == node]
    paths = [at for at, entry in enumerate(mine) if entry.kind == "Path"]
    return mine[paths[-1] + 1 :] if paths else mine


def state_among(entries, number):
    """The state of a number by the entries of its epoch."""
    kinds = [entry.kind for entry in entries if number in entry.numbers]
    return GIVEN[kinds[-1]] if kinds else "Fresh"


def top_among(entries):
    """The greatest number that the packets and tests of an epoch name, or None."""
    return max((n for entry in entries if entry.kind in ("File", "Hold", "Seal") for n in entry.numbers), default=None)


def near(top, wire_number):
    """The number nearest to the greatest one that is congruent to a number on the wire modulo 65,536."""
    if top is None:
        return 65_536 + wire_number
    return top - 32_768 + (wire_number - (top - 32_768)) % 65_536


def known(history):
    """The nodes that a history names, in the order of their first entries."""
    return list(dict.fromkeys(entry.node for entry in history if entry.kind in ("Path", "File", "Hold", "Seal")))


def held(history):
    """The keys that are held in present epochs, as pairs of a node and a number."""
    keys = set()
    for entry in history:
        if entry.kind == "Path":
            keys = {key for key in keys if key[0] != entry.node}
        for number in entry.numbers:
            keys.discard((entry.node, number))
            if entry.kind == "Hold":
                keys.add((entry.node, number))
    return keys


def stranded(history):
    """How many copies were held in an epoch and neither released nor cancelled when it ended."""
    paths = [at for at, entry in enumerate(history) if entry.kind == "Path"]
    return sum(node == history[at].node for at in paths for node, _ in held(history[:at]))


def since_close(history):
    """The entries behind the last Close."""
    closes = [at for at, entry in enumerate(history) if entry.kind == "Close"]
    return history[closes[-1] + 1 :] if closes else history


def is_close_due(history):
    """Whether something was filed since the last Close."""
    return any(entry.kind in ("File", "Release") for entry in since_close(history))


def is_tick_due(history, moment, open_time):
    """Whether a Tick of a moment is due: a Close is, and the last Tick since then lies the open time back."""
    ticks = [entry.moment for entry in since_close(history) if entry.kind == "Tick"]
    return is_close_due(history) and (not ticks or moment - ticks[-1] >= open_time)


def has_room(history, entry, reserved):
    """Whether the costs and what is promised leave room for an entry in a journal of so many octets."""
    after = history + [entry]
    promised = HELD_PROMISE * len(held(after)) + CLOSE_PROMISE * is_close_due(after)
    return sum(each.cost() for each in after) + promised <= reserved - HEAD


def moment_of(history, now):
    """The moment of the next entry."""
    return max(now, history[-1].moment) if history else now


def _is_refused_room(history, entry, reserved):
    """Whether a limit or the room forbids an entry that an answer calls for."""
    nodes = known(history)
    if entry.kind in ("Path", "File", "Hold", "Seal") and entry.node not in nodes and len(nodes) >= MOST_NODES:
        return True
    if entry.kind in ("File", "Hold", "Seal") and not LEAST_NUMBER <= entry.numbers[0] < NUMBER_BOUND:
        return True
    if entry.kind == "Hold" and len(held(history)) >= MOST_COPIES:
        return True
    return not has_room(history, entry, reserved)


def numbers_meant(history, node, wire_numbers):
    """The absolute numbers of a list from the wire, each once, in the order of first naming."""
    top = top_among(present(history, node))
    return list(dict.fromkeys(near(top, number) for number in wire_numbers))


def _judged(history, node, command, wire_numbers, moment):
    """The cause for a release or a cancel, and its entry or None."""
    wanted = "Released" if command == wire.RELEASE else "Cancelled"
    entries = present(history, node)
    numbers = numbers_meant(history, node, wire_numbers)
    states = [state_among(entries, number) for number in numbers]
    if not states or any(state not in ("Held", wanted) for state in states):
        return 254, None
    if "Held" not in states:
        return 252, None
    changed = tuple(number for number, state in zip(numbers, states) if state == "Held")
    return 128, Entry(moment, "Release" if command == wire.RELEASE else "Cancel", node, changed)


def _decided(history, node, command, sent, number, moment):
    """The cause for a packet, and its entry or None."""
    entries = present(history, node)
    meant = near(top_among(entries), number)
    ask = "empty" if sent.is_empty() else "send" if command == wire.SEND else "possible"
    cell = TABLE[ask][state_among(entries, meant)]
    if isinstance(cell, int):
        return cell, None
    cause, kind = cell
    return cause, Entry(moment, kind, node, (meant,), None if sent.is_empty() else sent)


def _echo_told(history, sender, counter, number, moment, reserved):
    """The answer to an Echo Response: a Path where the counter is new."""
    path = present_path(history, sender[0])
    alive = wire.message(wire.ALIVE_RESPONSE, number)
    if path is not None and path.counter == counter:
        return alive, None, None
    entry = Entry(moment, "Path", sender[0], port=sender[1], counter=counter)
    if _is_refused_room(history, entry, reserved):
        return None, "NoRoom", None
    return alive, None, entry


def answer(history, sender, octets, now, reserved):
    """The reply to a datagram or None, why it is dropped or None, and the entry that it adds or None."""
    found = wire.reading("gateway", octets)
    if found[0] == "drop":
        return None, found[1], None
    if found[0] == "version":
        return wire.message(wire.VERSION, found[1]), None, None
    if found[0] == "refused":
        return wire.response(found[1], found[3]), None, None
    _, kind, number, body = found
    moment = moment_of(history, now)
    if kind == wire.ECHO_REQUEST:
        starts = sum(entry.kind == "Start" for entry in history)
        return wire.echo_response(number, starts % 256), None, None
    if kind == wire.ALIVE_REQUEST:
        return wire.message(wire.ECHO_REQUEST, number), None, None
    if kind == wire.ECHO_RESPONSE:
        return _echo_told(history, sender, body, number, moment, reserved)
    command, said = body
    if command in (wire.RELEASE, wire.CANCEL):
        cause, entry = _judged(history, sender[0], command, said, moment)
    else:
        cause, entry = _decided(history, sender[0], command, said, number, moment)
    if entry is not None and _is_refused_room(history, entry, reserved):
        cause, entry = 199, None
    return wire.response(cause, number), None, entry
