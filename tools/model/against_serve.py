"""Compares what `serve` does with what the model says: its status, what it writes, the octets of the journal's file,
the files of the folder and each reply.

    python3 against_serve.py words|refused|settings|journals|datagrams|killed|crowd FIRST COUNT PROGRAM

The cases are drawn from the numbers FIRST, FIRST + 1 and so on:

    words      words that are refused, most of them
    refused    settings that are refused, most of them
    settings   settings, a journal and a folder that stand already, and no datagram
    journals   a journal that another program may have written, and no datagram
    datagrams  each datagram is sent once the reply to the one before has come
    killed     the same, and in its midst the program is killed and started again
    crowd      all nodes send at once, each its next datagram once the reply to the one before has come

The moments are read from the journal that the program left, and must lie in the time of the run. Each case that differs
is told by its number, with what differs. The exit status is 1 where one differs.
"""

import sys
import time
from pathlib import Path

import feed
import files
import journal
import script
import serve
import serve_cases
from serve_runs import Place, Run, Void, await_bound, entries_of

AT_ONCE, TRIES = 4, (1, 5, 25)


def quiet(case, program):
    """What the program does in a case without datagrams, and what it should do."""
    place = Place(case)
    try:
        found = place.ended(place.start(program, case.words, case.text), [])
    finally:
        place.remove()
    return found, serve.serve(["serve", *case.words, "area", "cdrs"], case.text, case.file, case.folder)


def spoken(case, program):
    """What the program does in a case with datagrams, and what it should do."""
    run = Run(program, case)
    try:
        run.ask_all(case.heard)
        found = run.ended()
    finally:
        run.leave()
    return found, run.wanted(found)


def undated(history):
    """A history without its moments."""
    return [entry._replace(moment=0) for entry in history]


def settings_of(case):
    """The settings of a case."""
    return files.Settings(script.read(case.text, "serve"))


def cut(case, program):
    """What a run leaves that is killed in the midst of a case, as the journal's file and the folder."""
    run, half = Run(program, case), len(case.heard) // 2
    try:
        run.ask_all(case.heard[:half])
        firm, (sender, octets) = undated(run.model.history[: run.model.firm]), case.heard[half]
        run.nodes.ask(sender, octets, False)
        run.tell(sender, octets)
        time.sleep(len(octets) % 5 / 1_000)
        run.process.kill()
        run.process.communicate()
        area, folder = serve.octets_of(run.place.area), serve.files_in(run.place.files)
    finally:
        run.leave()
    if undated(entries_of(area)) not in (firm, undated(run.model.history)):
        raise ValueError("what was answered isn't kept")
    whole = serve.sealed({}, entries_of(area), settings_of(case), serve_cases.ANYWHERE)
    if any(whole.get(name) != octets for name, octets in folder.items() if name.endswith(".cdr")):
        raise ValueError("a file isn't one of the history")
    return area, folder


def killed(case, program):
    """What the program does that is killed in the midst of a case, and started again; and what it should do."""
    area, folder = cut(case, program)
    return spoken(case._replace(file=area, folder=folder, heard=case.heard[len(case.heard) // 2 :]), program)


def of_nodes(history):
    """The entries of each node without their moments and serials."""
    found = {}
    for entry in history:
        found.setdefault(entry.node, []).append(entry._replace(moment=0, serial=0))
    return found


def have_risen(history):
    """Whether the serials of each session rise."""
    pairs = [(entry.session, entry.serial) for entry in history if entry.serial]
    return all([pair for pair in pairs if pair[0] == session] == sorted({each for each in pairs if each[0] == session})
               for session in range(serve.SESSIONS))


def ask_crowd(run, heard):
    """Sends some datagrams of each node at once, and then the next; answers the model's replies, by their senders."""
    queues = {sender: [octets for each, octets in heard if each == sender] for sender, _ in heard}
    wanted = []
    await_bound(run.process, run.port)
    while any(queues.values()):
        sent = [(sender, octets) for sender, queue in queues.items() for octets in queue[:AT_ONCE]]
        queues = {sender: queue[AT_ONCE:] for sender, queue in queues.items()}
        for sender, octets in sent:
            run.nodes.ask(sender, octets, False)
        said = [(sender, reply) for sender, octets in sent for reply in [run.tell(sender, octets)] if reply]
        wanted += said
        run.replies += [(sender, run.nodes.heard(sender)) for sender, _ in said]
    if run.process.poll() is not None:
        raise Void
    return wanted


def crowd(case, program):
    """What the program does while all nodes send at once, and what it should do; the order of the entries of different
    nodes is the one that is found."""
    run = Run(program, case)
    try:
        wanted = ask_crowd(run, case.heard)
        found = run.ended()
    finally:
        run.leave()
    run.model.settle()
    history = entries_of(found.area)
    if of_nodes(history) != of_nodes(run.model.history) or not have_risen(history):
        raise ValueError("the entries of a node or of a session are others")
    folder = serve.sealed({}, history, settings_of(case), serve_cases.ANYWHERE)
    line = feed.gateway_line(1, history).encode() + b"\n"
    return found, serve.Ended(0, line, b"", found.area, folder, wanted)


WITH_DATAGRAMS = {"datagrams": spoken, "killed": killed, "crowd": crowd}


def compared(command, number, program):
    """What the program does in the case of a number, and what it should do."""
    case = serve_cases.case("datagrams" if command == "killed" else command, number)
    if command not in WITH_DATAGRAMS:
        return quiet(case, program)
    for turns in TRIES:
        try:
            words = (*case.words[:2], str(turns), *case.words[3:])
            return WITH_DATAGRAMS[command](case._replace(words=words), program)
        except Void:
            print(f"{number}: the turns were over, again", flush=True)
    raise ValueError("the program ends before it has answered all")


def shown(part):
    """A part of an end, shortened."""
    text = repr(part)
    return text if len(text) < 400 else text[:200] + " .. " + text[-200:]


def difference(found, wanted):
    """What differs of two ends, as lines."""
    lines = []
    for name in found._fields:
        mine, other = getattr(found, name), getattr(wanted, name)
        if mine == other:
            continue
        lines.append(f"  {name}: found  {shown(mine)}")
        lines.append(f"  {name}: wanted {shown(other)}")
        if name in ("area", "folder", "replies") and mine and other:
            lines.append(f"  {name}: first at {first_place(mine, other)}")
    return lines


def first_place(mine, other):
    """The first place, or name, at which two lists or folders differ."""
    if isinstance(mine, dict):
        return next((name for name in sorted({*mine, *other}) if mine.get(name) != other.get(name)), None)
    return next((at for at, pair in enumerate(zip(mine, other)) if pair[0] != pair[1]), min(len(mine), len(other)))


def main(command, first, count, program):
    """Compares so many cases; whether one differs."""
    program, differing = str(Path(program).resolve()), []
    for number in range(first, first + count):
        try:
            found, wanted = compared(command, number, program)
            lines = difference(found, wanted)
        except (ValueError, journal.NotOurs) as wrong:
            lines = [f"  {wrong!r}"]
        if lines:
            differing.append(number)
            print(f"{number} differs", *lines, sep="\n", flush=True)
    print(f"{len(differing)} of {count} cases of {command} differ")
    return len(differing) > 0


if __name__ == "__main__":
    sys.exit(main(sys.argv[1], int(sys.argv[2]), int(sys.argv[3]), sys.argv[4]))
