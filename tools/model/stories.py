"""Compares what stands in crates/story_runs/stdout for each story with what the models write for it.

    python3 stories.py

Stories that differ are told with what a model writes. The exit status is 1 where one differs. A drill of more than 2,000
packets is left out: the model takes minutes for it.
"""

import sys
from pathlib import Path

import feed
import loops
import sample
import script
import serve
import show
import streams
import world

FOLDER = Path(__file__).resolve().parents[2] / "crates" / "story_runs"
NAME = b"\n== "
LONGEST = 2_000


def stories(part):
    """The stories of the file `stdin` or `stdout`, by their names."""
    return dict(text.partition(b"\n")[::2] for text in (FOLDER / part).read_bytes().split(NAME)[1:])


def handed_back(lines):
    """What is told of the network that a script ran."""
    counts = {form: values[0] for form, *values in lines if form in ("gateways", "nodes")}
    gateways, nodes = counts.get("gateways", 1), counts.get("nodes", 1)
    return b"handed back: areas %d, shelves %d, nodes %d\n" % (gateways, gateways, nodes)


def sealed(folder):
    """What is told of the files that a stream leaves."""
    return b"".join(b"file %s %s\n" % (name.encode(), folder[name].hex().upper().encode()) for name in sorted(folder))


def model(command, numbers, text):
    """What the model of a command writes, its status, what it says of its end, and the lines of the network that it
    ran, or what is told of the files that it leaves and of what it hands back."""
    if command == "feed":
        return *feed.feed(text), []
    if command == "show":
        return *show.show(text), []
    if command == "stream":
        ended = streams.run([command, *numbers], text, None, {})
        return b"octets %s\n" % ended.output.hex().upper().encode(), ended.status, ended.error, sealed(ended.folder)
    if command == "serve":
        ended = serve.serve([command, *numbers], text, None, {})
        return ended.output, ended.status, ended.error, []
    if command == "loopback":
        return loops.run(numbers)
    if command == "replay":
        out, status, error = world.replay(text)
        return out, status, error, [] if status else script.read(text, "replay")
    lines = sample.sample(*map(int, numbers))[0]
    if command == "sample":
        return script.print_(lines), 0, b"", []
    return world.summary(lines), 0, b"", lines


def told(text):
    """What is to stand in `stdout` for a story."""
    words, _, text = text.partition(b"\n")
    command, *numbers = words.decode().split(" ")
    if text.startswith(b"octets "):
        text = bytes.fromhex(text[7:].decode())
    out, status, error, lines = model(command, numbers, text)
    end = b"status %d, %s" % (status, error or b"cgf: done\n")
    if isinstance(lines, bytes):
        return out + end + lines
    return out + end + (handed_back(lines) if lines else b"")


def is_left_out(text):
    """Whether a story is a drill of more packets than the model runs in a moment."""
    words = text.partition(b"\n")[0].split(b" ")
    return words[0] == b"drill" and int(words[4]) > LONGEST


def main():
    differ, stands = 0, stories("stdout")
    for name, text in stories("stdin").items():
        if is_left_out(text):
            continue
        wanted = told(text)
        if stands.pop(name, b"") != wanted:
            differ += 1
            print(f"== {name.decode()}\n{wanted.decode()}")
    print(f"{differ} stories differ", file=sys.stderr)
    return differ > 0


if __name__ == "__main__":
    sys.exit(main())
