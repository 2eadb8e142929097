#!/usr/bin/env python3
"""How much processor time josie takes for each search of some scripts, in turns with other programs that read the same scripts.

    bench/turn_speed.py --loads LOADS --beside COMMAND [--beside COMMAND ..] [--josie JOSIE] [--times N] [--unmerged] SEARCHES ..

LOADS is a script of loads, and each SEARCHES a script of searches, both of any length. Each program is kept open, loads the lake once, and merges it unless
`--unmerged` is given. Then, for each script of searches, the programs take turns: josie first, each answers a batch of these searches, N times in all. What a
machine does besides, and how fast it is at the moment, then falls on all of them. Printed are, for each program in microseconds per search, the least and the
median of the N batches, and both in times those of the first COMMAND. The time is that of all threads of the process as Linux accounts for it (`schedstat`), so
the pipes and this script are not measured.
"""
import argparse
import os
import re
import shlex
import statistics
import subprocess
import sys
import threading
import time

# A batch holds the searches of a script as often as they fit, since a turn should be long beside what a switch of programs costs.
BATCH_BYTES = 400_000
BATCH_COMMANDS = 2_000
# How long a program is given to go to sleep after its last reply, in seconds.
REST = 0.02


class Program:
    """A program that is kept open and answers batches."""

    def __init__(self, words):
        self.process = subprocess.Popen(words, stdin=subprocess.PIPE, stdout=subprocess.PIPE)

    def answer(self, batch, replies):
        """Gives the program a batch, and waits until the last of its replies has begun."""
        writer = threading.Thread(target=self._write, args=(batch,))
        writer.start()
        seen = 0
        while seen < replies:
            line = self.process.stdout.readline()
            if not line or b" refused " in line or b" no memory" in line:
                sys.exit(f"turn_speed: {self.process.args[0]}: {line.decode() or 'it ended'}")
            seen += not line.startswith(b"  ")
        writer.join()
        time.sleep(REST)

    def _write(self, batch):
        self.process.stdin.write(batch)
        self.process.stdin.flush()

    def taken(self):
        """The processor time that all its threads have taken so far, in seconds."""
        threads = f"/proc/{self.process.pid}/task"
        total = 0
        for thread in os.listdir(threads):
            with open(f"{threads}/{thread}/schedstat", encoding="ascii") as told:
                total += int(told.read().split()[0])
        return total / 1e9

    def close(self):
        # The rows of the last reply may still be in the pipe.
        self.process.stdin.close()
        self.process.stdout.read()
        self.process.wait()


def commands_in(script):
    """How many commands a script has: those with a block end with a dot, and the others are not asked for here."""
    return len(re.findall(rb"^\.$", script, re.MULTILINE))


def script_of(path):
    """The script at a path, without the ends of its batches."""
    with open(path, "rb") as script:
        return re.sub(rb"^sync\n", b"", script.read(), flags=re.MULTILINE)


def load(programs, path, merges):
    """Lets each program load the lake, in the batches of the script, and merge it."""
    with open(path, "rb") as script:
        loads = script.read()
    for program in programs:
        program.answer(loads, commands_in(loads))
        if merges:
            program.answer(b"merge all\nsync\n", 1)


def compare(programs, path, times):
    """Lets the programs take turns in answering a script of searches, and prints what they took."""
    searches = script_of(path)
    copies = max(1, min(BATCH_BYTES // len(searches), BATCH_COMMANDS // commands_in(searches)))
    count = copies * commands_in(searches)
    batch = searches * copies + b"sync\n"
    runs = [[] for _ in programs]
    for _ in range(times):
        for program, taken in zip(programs, runs):
            before = program.taken()
            program.answer(batch, count)
            taken.append((program.taken() - before) / count * 1e6)
    for name, pick in (("least", min), ("median", statistics.median)):
        picked = [pick(taken) for taken in runs]
        print(f"{os.path.basename(path):>24} {name:>7} " + " ".join(f"{took:9.1f} ({took / picked[1]:4.2f})" for took in picked), flush=True)


def main():
    words = argparse.ArgumentParser(description=__doc__.splitlines()[0])
    here = os.path.dirname(os.path.abspath(__file__))
    words.add_argument("--josie", default=os.path.join(here, "..", "josie"))
    words.add_argument("--loads", required=True)
    words.add_argument("--beside", type=shlex.split, metavar="COMMAND", action="append", required=True)
    words.add_argument("--times", type=int, default=10)
    words.add_argument("--unmerged", action="store_true")
    words.add_argument("searches", nargs="+")
    given = words.parse_args()
    programs = [Program([os.path.abspath(given.josie), "run"])] + [Program(command) for command in given.beside]
    load(programs, given.loads, not given.unmerged)
    for path in given.searches:
        compare(programs, path, given.times)
    for program in programs:
        program.close()


if __name__ == "__main__":
    main()
