#!/usr/bin/env python3
"""Which crates took the most processor time while the gate ran.

    checks/slowest_crates.py &      # kill -INT $! prints the table and ends it

Every second it reads, from /proc, the processor time of each running prover, and which crate it proves (the argument after `--crate-name`). What a prover takes
after its last reading is not counted.
"""
import collections
import os
import pathlib
import signal
import time

TICKS = os.sysconf("SC_CLK_TCK")
SHOWN = 5


def provers():
    """The crate and the processor seconds of each running prover, by its process number and the time of its start."""
    found = {}
    for process in pathlib.Path("/proc").glob("[0-9]*"):
        try:
            words = (process / "cmdline").read_bytes().split(b"\0")
            if b"--crate-name" not in words:
                continue
            fields = (process / "stat").read_text().rpartition(")")[2].split()
        except (OSError, ValueError):
            continue
        crate = words[words.index(b"--crate-name") + 1].decode()
        found[process.name, fields[19]] = crate, (int(fields[11]) + int(fields[12])) / TICKS
    return found


def watch():
    seen = {}
    try:
        while True:
            seen.update(provers())
            time.sleep(1)
    except KeyboardInterrupt:
        return seen


def main():
    # a shell starts what it puts in the background with this signal ignored
    signal.signal(signal.SIGINT, signal.default_int_handler)
    seconds = collections.Counter()
    for crate, taken in watch().values():
        seconds[crate] += taken
    print(f"the slowest crates, with their tests and must-fail edits, in processor seconds (of {sum(seconds.values()):.0f} in all):")
    for crate, taken in seconds.most_common(SHOWN):
        print(f"  {taken:6.0f}  {crate}")


if __name__ == "__main__":
    main()
