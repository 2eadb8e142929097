#!/usr/bin/env python3
"""How much time and memory the check of a trace takes, compared with the run that wrote it.

    bench/check_speed.py [JOSIE] [--times N]

A lake of three hundred tables of three columns and eight records each is loaded. Then there are a thousand rounds on one lane. In each, a table is dropped and
another one is loaded, fifty times; ten searches of eight values are asked; and the whole lake is merged. So there are 100,300 updates, 10,000 searches and a
trace of some forty megabytes. A time is the least CPU time of N whole runs, and the memory is the greatest of one run. It exits with 1 if the check takes more
than three times the time of the run with its trace, or more than twice its memory.
"""
import os
import random
import subprocess
import sys
import tempfile

from merge_speed import measured
from program import given_words

TABLES, COLUMNS, ROWS, VALUES = 300, "a,b,c", 8, 1_000
ROUNDS, CHANGED, ASKED, SIZE, MOST = 1_000, 50, 10, 8, 10
SYNC = 10  # rounds per batch
MOST_TIME, MOST_MEMORY = 3, 2


def load(chance, number):
    rows = [",".join(f"value {chance.randrange(VALUES)}" for _ in COLUMNS.split(",")) for _ in range(ROWS)]
    return [f"load t{number}", COLUMNS, *rows, "."]


def search(chance):
    return [f"search {MOST}", *(f"value {number}" for number in chance.sample(range(VALUES), SIZE)), "."]


def one_round(chance, first):
    """The lines of a round whose first load has this number."""
    lines = []
    for number in range(first, first + CHANGED):
        lines += [f"drop t{number - TABLES}", *load(chance, number)]
    for _ in range(ASKED):
        lines += search(chance)
    return [*lines, "merge all"]


def script():
    chance = random.Random(1)
    lines = [line for number in range(TABLES) for line in load(chance, number)]
    for number in range(ROUNDS):
        lines += one_round(chance, TABLES + number * CHANGED)
        lines += ["sync"] if number % SYNC == SYNC - 1 else []
    return "".join(line + "\n" for line in lines)


def written(folder, name, text):
    path = os.path.join(folder, name)
    with open(path, "w", encoding="ascii") as file:
        file.write(text)
    return path


def main():
    given = given_words(__doc__, 3)
    with tempfile.TemporaryDirectory() as folder:
        asked, trace = written(folder, "script", script()), os.path.join(folder, "trace")
        with open(asked, "rb") as source, open(trace, "wb") as out:
            subprocess.run([given.josie, "run", "--trace"], stdin=source, stdout=out, check=True)
        ran, run_peak = measured(given.times, [given.josie, "run", "--trace"], asked)
        checked, check_peak = measured(given.times, [given.josie, "check", trace], asked)
        size = os.path.getsize(trace)
    print(f"a trace of {size / 1e6:.1f} MB of {2 * CHANGED * ROUNDS + TABLES} updates and {ASKED * ROUNDS} searches:")
    print(f"  the run    {ran:7.2f} s   {run_peak / 2**20:7.1f} MiB")
    print(f"  the check  {checked:7.2f} s   {check_peak / 2**20:7.1f} MiB   {checked / ran:5.2f} times the time, {check_peak / run_peak:5.2f} times the memory")
    sys.exit(checked > MOST_TIME * ran or check_peak > MOST_MEMORY * run_peak)


if __name__ == "__main__":
    main()
