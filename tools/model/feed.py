"""The command `feed`: one gateway, the datagrams of a script, the reply to each, and its files at the end.

    python3 feed.py FILE
"""

import sys

import files
import gateway
import script
from gateway import Entry


def gateway_line(number, history):
    """The line of a report that counts what a gateway did."""
    records = sum(item.mark is None for item in files.items(history))
    held, stranded = len(gateway.held(history)), gateway.stranded(history)
    return f"gateway {number} entries {len(history)} records {records} held {held} stranded {stranded}"


def closed(history, moment):
    """A history with the Close that is due, if one is."""
    if not gateway.is_close_due(history):
        return history
    return history + [Entry(gateway.moment_of(history, moment), "Close")]


def marked(history, moment, settings):
    """A history with the Tick that is due and has room, if one is and has."""
    entry = Entry(gateway.moment_of(history, moment), "Tick")
    is_due = gateway.is_tick_due(history, entry.moment, settings.open_time)
    return history + [entry] if is_due and gateway.has_room(history, entry, settings.reserve) else history


def run(lines):
    """The lines written for a script, and the fault where the world refuses one of its lines."""
    settings, moment, written = files.Settings(lines), 0, []
    history = [Entry(0, "Start")]
    for place, (form, *values) in enumerate(lines, 1):
        if form == "at":
            if values[0] < moment:
                return written, script.Fault(place, "Earlier")
            moment = values[0]
        elif form == "in":
            sender, octets = values
            reply, why, entry = gateway.answer(history, sender, octets, moment, settings.reserve)
            history = history if entry is None else history + [entry]
            written.append(f"- {why}" if reply is None else reply.hex().upper())
        elif form == "mark":
            history = marked(history, moment, settings)
        elif form == "close":
            history = closed(history, moment)
    history = closed(history, moment)
    return written + files.file_lines(1, history, settings) + [gateway_line(1, history)], None


def outcome(text, kind, play):
    """What a command writes for a text, by the function that plays its lines: standard output, the status, and
    standard error."""
    try:
        written, fault = play(script.read(text, kind))
    except script.Fault as refused:
        written, fault = [], refused
    output = "".join(line + "\n" for line in written).encode()
    return (output, 0, b"") if fault is None else (output, 2, f"cgf: input {fault.place}: {fault.kind}\n".encode())


def feed(text):
    """The outcome of `feed` for a text."""
    return outcome(text, "feed", run)


if __name__ == "__main__":
    with open(sys.argv[1], "rb") if sys.argv[1] != "-" else sys.stdin.buffer as source:
        out, status, error = feed(source.read())
    sys.stdout.buffer.write(out)
    sys.stderr.buffer.write(error)
    sys.exit(status)
