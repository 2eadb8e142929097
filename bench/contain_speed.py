#!/usr/bin/env python3
"""How long a contain takes, compared with a search for 10,000 columns, which finds the same columns and more.

    bench/contain_speed.py [JOSIE] [--times N] [--lake LOADS SEARCHES]

One script loads a lake of a hundred tables of four columns each, 400,000 members in all, with each value in about ten columns; or the lake is that of the
script LOADS. It is searched as it was loaded, one part per table, and merged into one part. Each query has 10, 100 or 1,000 values, nine of ten of which are
from one column; or the queries are those of the script SEARCHES. They are asked with `search 10000` and with `contain A B`, for four fractions. The time of a
question is the CPU time of the run with all questions less that of the run without, each the least of N whole runs, divided by the number of questions; it
includes reading the query and writing the reply. Both runs begin with a search for nothing, which builds the indexes that are missing. The merged lake is asked
the questions twenty times over, because its answers take little time compared with the loads.
"""
import functools
import os
import random
import re
import resource
import subprocess
import sys
import tempfile

from program import given_words

TABLES, COLUMNS, ROWS = 100, 4, 1_000
VALUES = TABLES * COLUMNS * ROWS // 10
QUERIES = {10: 1_000, 100: 300, 1_000: 60}
FRACTIONS = [(1, 10), (1, 2), (9, 10), (1, 1)]
# A search without a key: it builds the indexes that are missing, and finds nothing.
FIRST = "search 1\n.\nsync\n"


def made_lake(chance):
    """The script of the loads, and the columns' values."""
    lines, columns = [], []
    for table in range(TABLES):
        cells = [chance.sample(range(VALUES), ROWS) for _ in range(COLUMNS)]
        columns += cells
        lines += [f"load t{table}", "a,b,c,d", *(",".join(f"value {column[row]}" for column in cells) for row in range(ROWS)), "."]
        lines += ["sync"] if table % 10 == 9 else []
    return "".join(line + "\n" for line in lines), columns


def made_queries(chance, columns, size):
    """Queries of this many values, nine of ten from one column each."""
    for _ in range(QUERIES[size]):
        shared = size * 9 // 10
        yield [f"value {number}" for number in chance.sample(chance.choice(columns), shared) + chance.sample(range(VALUES), size - shared)]


def questions(front, queries):
    asked = [front + "\n" + "".join(value + "\n" for value in query) + ".\n" for query in queries]
    return "".join(question + ("sync\n" if number % 100 == 0 else "") for number, question in enumerate(asked, 1))


def least_time(given, folder, script):
    """The least CPU time of some runs over a script, in seconds. A script with a refused command measures nothing."""
    path = os.path.join(folder, "script")
    with open(path, "w", encoding="utf-8") as file:
        file.write(script)
    best = None
    for _ in range(given.times):
        with open(path, "rb") as source, tempfile.TemporaryFile() as out:
            before = resource.getrusage(resource.RUSAGE_CHILDREN)
            subprocess.run([given.josie, "run"], stdin=source, stdout=out, check=True)
            after = resource.getrusage(resource.RUSAGE_CHILDREN)
            out.seek(0)
            if any(b" refused " in line or b" no memory" in line for line in out):
                sys.exit("least_time: a command was refused")
        taken = after.ru_utime + after.ru_stime - before.ru_utime - before.ru_stime
        best = taken if best is None else min(best, taken)
    return best


def stored_queries(path):
    """The queries of a script of searches."""
    with open(path, encoding="utf-8") as file:
        return [block.split("\n")[:-1] for block in re.findall(r"^search \d+\n((?:(?!\.\n).*\n)*)\.\n", file.read(), re.MULTILINE)]


def main():
    given = given_words(__doc__, 3, has_lake=True)
    chance = random.Random(1)
    if given.lake:
        with open(given.lake[0], encoding="utf-8") as file:
            loads = file.read()
        sets = {"stored": stored_queries(given.lake[1])}
    else:
        loads, columns = made_lake(chance)
        sets = {f"{size:5} values": list(made_queries(chance, columns, size)) for size in QUERIES}
    with tempfile.TemporaryDirectory() as folder:
        measured = functools.partial(least_time, given, folder)
        for state, lake in (("as loaded", loads + "sync\n"), ("merged", loads + "sync\nmerge all\nsync\n")):
            lake += FIRST
            loaded = measured(lake)
            for name, asked in sets.items():
                queries = asked * (20 if state == "merged" else 1)
                fronts = ["search 10000"] + [f"contain {part} {whole}" for part, whole in FRACTIONS]
                taken = [(measured(lake + questions(front, queries)) - loaded) / len(queries) * 1e6 for front in fronts]
                print(f"{state:9} {name}: " + "   ".join(f"{front} {time:7.1f} us" for front, time in zip(fronts, taken)), flush=True)


if __name__ == "__main__":
    main()
