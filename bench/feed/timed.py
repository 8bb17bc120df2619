"""Runs a program with its words so many times, `python3 timed.py TIMES PROGRAM WORD..`, and prints of the run with the
least processor time: that time in seconds, the time by the clock, the most octets of memory, and the exit status. What
the program writes is thrown away. Memory is never told as less than the dozen MiB that this script itself has.
"""

import os
import sys
import time

QUIET = [(os.POSIX_SPAWN_OPEN, stream, "/dev/null", os.O_WRONLY, 0) for stream in (1, 2)]


def run(words):
    begun = time.monotonic()
    child = os.posix_spawn(words[0], words, os.environ, file_actions=QUIET)
    _, status, usage = os.wait4(child, 0)
    taken = time.monotonic() - begun
    return usage.ru_utime + usage.ru_stime, taken, usage.ru_maxrss * 1024, os.waitstatus_to_exitcode(status)


if __name__ == "__main__":
    used, taken, most, status = min(run(sys.argv[2:]) for _ in range(int(sys.argv[1])))
    print(f"{used:.3f} {taken:.3f} {most} {status}")
