"""Tries the program on bad days, and compares what it writes and how it ends with the models.

    python3 hostile.py replays|datagrams|texts FIRST COUNT PROGRAM

    replays    replays full of stops and failures
    datagrams  mangled datagrams, many in one feed
    texts      octets as scripts, as the settings of what serves, and as CDR files

The cases are drawn from the numbers FIRST, FIRST + 1 and so on. Of a replay it is also asked, of its report alone, that
no record stands twice in the files of all gateways, and that each record of a resolved packet stands there. Each case
that is wrong is told by its number and kept, made as small as lines can be left out, in a folder that is named at the
end. The exit status is 1 where there is one.
"""

import subprocess
import sys
import tempfile
from collections import Counter
from pathlib import Path

import against_serve
import feed
import hostile_cases
import script
import serve_cases
import show
import world

PATIENCE = 60
MODELS = {"feed": feed.feed, "replay": world.replay, "show": show.show}
STATUSES = range(10)
TOLD = ("stopped ", "fault ", "shelf fault ", "resolved ")


def ran(program, command, text):
    """What the program writes of a text, its status, and what it writes on standard error; a signal is below 0."""
    try:
        done = subprocess.run([program, command, "-"], input=text, capture_output=True, check=False, timeout=PATIENCE)
    except subprocess.TimeoutExpired:
        return b"", -1, b"it runs on\n"
    return done.stdout, done.returncode, done.stderr


def served(program, text):
    """What `serve` leaves and writes of its settings, and what it should; nothing is sent to it."""
    case = serve_cases.Case(("127.0.0.1", "0", "1", "100000"), text, None, {})
    return against_serve.quiet(case, program)


def records(output):
    """The records of all files in a report that have a name of their own."""
    found = []
    for line in output.splitlines():
        if line.startswith(b"file "):
            octets = bytes.fromhex(line.split()[-1].decode())
            is_extended = show.header(octets)[2][0] < show.header(octets)[2][1]
            found += [cdr.octets for cdr in show.cdrs(octets, show.number(octets, 4, 4), is_extended)]
    return [record for record in found if record.startswith(hostile_cases.SIGN)]


def copies(text, output):
    """What is wrong with the records in the report of a replay: lines."""
    stand, lines = Counter(records(output)), output.decode().splitlines()
    wrong = [f"twice: {record[:6].hex()}" for record, count in stand.items() if count > 1]
    submitted = [line[-1] for line in script.read(text, "replay") if line[0] == "submit"]
    told = [line.split() for line in lines if line.startswith(("packet ", "refused "))]
    packets = {name[1]: kept for name, kept in zip(told, submitted) if name[0] == "packet"}
    for line in lines:
        if line.startswith("resolved "):
            named = [each for each in packets[line.split()[1]] if each.startswith(hostile_cases.SIGN)]
            missing = [record for record in named if stand[record] != 1]
            wrong += [f"{line}, and missing: {record[:6].hex()}" for record in missing]
    return wrong


def told(output):
    """How often a replay tells of a stop, of a failure, and of a packet that became resolved."""
    lines = output.decode().splitlines()
    return Counter({word.strip(): sum(line.startswith(word) for line in lines) for word in TOLD})


def faults(program, command, text, wanted=None):
    """What is wrong with the run of a text, how it ended, and what it told; what should come of it may be known."""
    if command == "serve":
        found, wanted = served(program, text)
        return against_serve.difference(found, wanted), found.status, Counter()
    found, wanted = ran(program, command, text), wanted or MODELS[command](text)
    wrong = [] if found[1] in STATUSES else [f"it ended with {found[1]}"]
    if found != wanted:
        wrong.append("another output than the model's")
    if command == "replay" and found[1] == 0:
        wrong += copies(text, found[0])
    return wrong, found[1], told(found[0]) if command == "replay" else Counter()


def smaller(program, command, text):
    """A text as small as it gets where lines are left out and something stays wrong."""
    lines = text.split(b"\n")
    size = len(lines) // 2
    while size > 0:
        at = 0
        while at < len(lines):
            tried = lines[:at] + lines[at + size :]
            if faults(program, command, b"\n".join(tried))[0]:
                lines = tried
            else:
                at += size
        size //= 2
    return b"\n".join(lines)


def case(what, number):
    """The command and the text of a number, and what should come of it, or None."""
    if what == "replays":
        return "replay", *hostile_cases.Storm(number).case()
    if what == "datagrams":
        return "feed", hostile_cases.Mangled(number).script(), None
    return *hostile_cases.text_case(number), None


def main(what, first, count, program):
    program, folder = str(Path(program).resolve()), Path(tempfile.mkdtemp(prefix=f"hostile-{what}-"))
    ends, met, wrong = Counter(), Counter(), 0
    count = -(-count // hostile_cases.DATAGRAMS) if what == "datagrams" else count
    for number in range(first, first + count):
        command, text, wanted = case(what, number)
        found, status, tells = faults(program, command, text, wanted)
        ends[f"{command} {status}"] += 1
        met += tells
        if found:
            wrong += 1
            print(f"{what} {number}: {'; '.join(found)}", flush=True)
            (folder / f"{number}.whole").write_bytes(text)
            (folder / f"{number}.{command}").write_bytes(smaller(program, command, text))
    listed = [", ".join(f"{name}: {found[name]}" for name in sorted(found)) for found in (ends, met)]
    print(f"{wrong} of {count} wrong{f', kept in {folder}' if wrong else ''}; the statuses are {listed[0]}", flush=True)
    if met:
        print(f"told were {listed[1]}", flush=True)
    if not wrong:
        folder.rmdir()
    return wrong > 0


if __name__ == "__main__":
    sys.exit(main(sys.argv[1], int(sys.argv[2]), int(sys.argv[3]), sys.argv[4]))
