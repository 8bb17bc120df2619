"""Compares what the program writes with what the models write: standard output, standard error and the exit status.

    python3 against.py feed|replay|sample|drill|show FIRST COUNT PROGRAM

The scripts, the files, or the words of a sample or a drill, are drawn from the numbers FIRST, FIRST + 1 and so on.
Each case that differs is told by its number, and its script is kept in a folder that is named at the end. The exit
status is 1 where one differs.
"""

import random
import subprocess
import sys
import tempfile
from pathlib import Path

import feed
import feed_scripts
import replay_scripts
import sample
import script
import show
import show_files
import world


def case(command, number):
    """The words of the program, its standard input, and what it should write and end with."""
    if command == "feed":
        text = feed_scripts.Feed(number).script()
        return ["feed", "-"], text, feed.feed(text)
    if command == "replay":
        text = replay_scripts.Replay(number).script()
        return ["replay", "-"], text, world.replay(text)
    if command == "show":
        octets = show_files.file(number)
        return ["show", "-"], octets, show.show(octets)
    draw = random.Random(number)
    seed = draw.choice((number, draw.randrange(2**64)))
    nodes, gateways = draw.randint(1, 16), draw.randint(1, 8)
    words = [seed, nodes, gateways, draw.randint(1, 300 if command == "sample" else 60)]
    lines = sample.sample(*words)[0]
    output = script.print_(lines) if command == "sample" else world.summary(lines)
    return [command, *map(str, words)], b"", (output, 0, b"")


def main(command, first, count, program):
    differing = []
    folder = Path(tempfile.mkdtemp(prefix=f"against-the-model-{command}-"))
    for number in range(first, first + count):
        words, text, wanted = case(command, number)
        ran = subprocess.run([program, *words], input=text, capture_output=True, check=False)
        if (ran.stdout, ran.returncode, ran.stderr) != wanted:
            differing.append(number)
            (folder / f"{number}.script").write_bytes(text)
            (folder / f"{number}.model").write_bytes(wanted[0] + wanted[2])
            (folder / f"{number}.program").write_bytes(ran.stdout + ran.stderr)
            print(f"{number} differs: {' '.join(words)}")
    if differing:
        print(f"{len(differing)} of {count} differ; they are kept in {folder}")
        return 1
    folder.rmdir()
    print(f"{count} cases of {command}, and none differs")
    return 0


if __name__ == "__main__":
    sys.exit(main(sys.argv[1], int(sys.argv[2]), int(sys.argv[3]), sys.argv[4]))
