#!/usr/bin/env python3
"""What a load costs while sixteen queries are watched, compared with the load alone and with sixteen searches from scratch.

    bench/watch_speed.py [JOSIE] [--times N]

One script loads a lake of a hundred tables of four columns each, 400,000 members in all, with each value in about ten columns. Sixteen queries of 10,000 values
are watched, or are asked by a search after each load, for ten rows each; the searches follow only the first ten loads, because each costs more than a load. A
time is the least CPU time of N whole runs, less that of a run with one small load (at which the watched queries are put into one index), divided by the number
of loads.
"""
import os
import random
import resource
import subprocess
import tempfile

from contain_speed import COLUMNS, ROWS, TABLES, VALUES
from program import given_words

QUERIES, SIZE, MOST = 16, 10_000, 10
FIRST = "load first\na\nno value\n.\nsync\n"
SEARCHED = 10


def loads(chance):
    """The script of each load."""
    for table in range(TABLES):
        cells = [chance.sample(range(VALUES), ROWS) for _ in range(COLUMNS)]
        rows = "".join(",".join(f"value {column[row]}" for column in cells) + "\n" for row in range(ROWS))
        yield f"load t{table}\na,b,c,d\n{rows}.\n"


def least_time(times, words, script, folder):
    """The least CPU time of some runs, in seconds."""
    best = None
    for _ in range(times):
        before = resource.getrusage(resource.RUSAGE_CHILDREN)
        subprocess.run(words, input=script, stdout=subprocess.DEVNULL, check=True, cwd=folder)
        after = resource.getrusage(resource.RUSAGE_CHILDREN)
        taken = after.ru_utime + after.ru_stime - before.ru_utime - before.ru_stime
        best = taken if best is None else min(best, taken)
    return best


def main():
    given = given_words(__doc__, 5)
    chance = random.Random(1)
    tables = list(loads(chance))
    queries = ["".join(f"value {number}\n" for number in chance.sample(range(VALUES), SIZE)) for _ in range(QUERIES)]
    asked = "".join(f"search {MOST}\n{query}.\n" for query in queries)
    with tempfile.TemporaryDirectory() as folder:
        paths = [f"q{number}" for number in range(1, QUERIES + 1)]
        for path, query in zip(paths, queries):
            with open(os.path.join(folder, path), "w", encoding="utf-8") as file:
                file.write(query)

        def a_load(words, script, count):
            whole = least_time(given.times, [given.josie, *words], (FIRST + script).encode(), folder)
            return (whole - least_time(given.times, [given.josie, *words], FIRST.encode(), folder)) / count * 1e6

        all_loads = "".join(table + ("sync\n" if number % 10 == 9 else "") for number, table in enumerate(tables))
        alone = a_load(["run"], all_loads, TABLES)
        watched = a_load(["watch", str(MOST), *paths], all_loads, TABLES)
        searched = a_load(["run"], "".join(table + "sync\n" + asked + "sync\n" for table in tables[:SEARCHED]), SEARCHED)
    print(f"a load of {COLUMNS} columns of {ROWS} values, {QUERIES} queries of {SIZE} values:")
    print(f"  alone            {alone:9.1f} us")
    print(f"  watched          {watched:9.1f} us   {watched / alone:5.2f} times the load alone")
    print(f"  and 16 searches  {searched:9.1f} us   {searched / alone:5.2f} times the load alone")


if __name__ == "__main__":
    main()
