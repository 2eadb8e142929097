#!/usr/bin/env python3
"""What the first search of a lake costs that was loaded and not merged: it builds the index of each table.

    bench/first_speed.py [JOSIE] [--times N] [--lake LOADS SEARCHES]

One script loads a lake of 10,000 tables of three columns and eight records, and one a lake of 100 tables of four columns and 1,000 records; or the loads are
those of the script LOADS, and SEARCHES is not read. The first search asks for nothing, so that only the indexes are measured. Beside it stands a merge of the
whole lake, which builds one index, with a search for nothing after it. The times are CPU times of whole runs, less that of the loads alone, each the least of N
runs. The peaks of memory are the greatest of these runs.
"""
import functools
import os
import random
import tempfile

from contain_speed import FIRST
from merge_speed import measured
from program import given_words

LAKES = {"small tables": (10_000, 3, 8), "wide tables": (100, 4, 1_000)}
BATCH = 1_000


def made_loads(tables, columns, rows):
    """The script of the loads; each value is in about ten columns."""
    chance = random.Random(1)
    values = max(rows, tables * columns * rows // 10)
    text = []
    for table in range(tables):
        cells = [chance.sample(range(values), rows) for _ in range(columns)]
        text += [f"load t{table}", ",".join("abcd"[:columns]), *(",".join(f"value {cell[row]}" for cell in cells) for row in range(rows)), "."]
        text += ["sync"] if table % BATCH == BATCH - 1 else []
    return "".join(line + "\n" for line in text) + "sync\n"


def run(given, folder, script):
    """The least CPU time of some runs over a script, in seconds, and the greatest peak of memory, in MiB."""
    path = os.path.join(folder, "script")
    with open(path, "w", encoding="utf-8") as file:
        file.write(script)
    taken, peak = measured(given.times, [given.josie, "run"], path)
    return taken, peak / 2**20


def main():
    given = given_words(__doc__, 3, has_lake=True)
    if given.lake:
        with open(given.lake[0], encoding="utf-8") as file:
            lakes = {"stored": file.read() + "sync\n"}
    else:
        lakes = {name: made_loads(*sizes) for name, sizes in LAKES.items()}
    with tempfile.TemporaryDirectory() as folder:
        over = functools.partial(run, given, folder)
        for name, loads in lakes.items():
            (loaded, held), (first, indexed), (merged, peak) = over(loads), over(loads + FIRST), over(loads + "merge all\nsync\n" + FIRST)
            print(
                f"{name}: the loads {loaded:6.3f} s, peak {held:6.1f} MiB   and a first search {first - loaded:6.3f} s, {indexed:6.1f} MiB   "
                f"or a merge and a search {merged - loaded:6.3f} s, {peak:6.1f} MiB",
                flush=True,
            )


if __name__ == "__main__":
    main()
