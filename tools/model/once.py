"""Whether each record of each packet of a world is filed once."""

import files
import gateway as book


def _keys(world):
    """The keys and indices of the records that the firm histories file, each with its gateway: a list, since a record
    might be filed twice."""
    keys = []
    for place, gateway in enumerate(world.gateways):
        for _, _, run, _ in files.files(gateway.history[: gateway.firm], world.settings):
            keys += [(place, *item.key, item.index) for item in run]
    return keys


def _epoch_of(history, node, start):
    """The epoch of a node that a Path with this counter opened, or None."""
    counters = [entry.counter for entry in history if entry.kind == "Path" and entry.node == node]
    return counters.index(start) + 1 if start in counters else None


def violations(world):
    """The packets with a record that is filed too often or, though it was resolved, not at all, and the copies that are
    held or cancelled and yet filed."""
    keys, found = _keys(world), []
    firm = [gateway.history[: gateway.firm] for gateway in world.gateways]
    for node in world.nodes:
        for packet in node.ever:
            name = f"{node.address & 255}.{packet.packet}"
            copies = [
                (copy.gateway, node.address, _epoch_of(firm[copy.gateway], node.address, packet.start), copy.number)
                for copy in packet.copies
            ]
            for index in range(packet.value[0]):
                count = sum(keys.count((*copy, index)) for copy in copies)
                if count > 1 or packet.was_resolved and count == 0:
                    found.append(f"packet {name} record {index} is filed {count} times")
            for place, address, epoch, number in copies:
                state = _state(firm[place], address, epoch, number)
                if state in ("Held", "Cancelled") and (place, address, epoch, number, 0) in keys:
                    found.append(f"a copy of packet {name} is {state} and filed")
    return found


def _state(history, node, epoch, number):
    """The state of a number in an epoch."""
    mine = [entry for entry in history if entry.node == node]
    paths = [at for at, entry in enumerate(mine) if entry.kind == "Path"]
    bounds = [0, *[at + 1 for at in paths], len(mine)]
    return "Fresh" if epoch is None else book.state_among(mine[bounds[epoch] : bounds[epoch + 1]], number)
