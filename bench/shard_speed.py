#!/usr/bin/env python3
"""How fast a lake over four processes answers, compared with one process that has a quarter of the tables.

    bench/shard_speed.py [JOSIE] [--times N] [--quick]

It needs Dask (Debian's package python3-distributed). The tables are generated, always the same: three columns of 20,000 records, whose values are drawn so that
a few are in many tables and most are in one or two. One josie holds 279 of them, which have 16 million distinct values summed over columns (a lake may have
16,777,216); then four josie processes, in the workers of a local Dask cluster, hold four times as many. The names of the tables are chosen so that each shard
gets the same number. With --quick there are five tables per process. Each lake is loaded, merged whole, and asked N times for the 10 columns that share the
most with 100 values. It prints the seconds of the load and of the merge, the median and the greatest milliseconds of a search, and the memory of the processes.

With --quick it also checks that the rows of the four processes are those of one josie with all their tables.
"""
import logging
import os
import random
import statistics
import sys
import time

from program import given_words

HERE = os.path.dirname(os.path.abspath(__file__))
sys.path.insert(0, os.path.join(HERE, "..", "clients", "python"))

from josie import Lake, ShardedLake  # noqa: E402
from josie.sharded import shard_of  # noqa: E402

SHARDS = 4
TABLES, QUICK_TABLES = 279, 5
ROWS = 20_000
ASKED = 100


def value(chance):
    """One of many values, the smaller numbers far more often."""
    return f"v{int(chance.random() ** 3 * 10_000_000)}"


def table(number):
    """The bytes of a table."""
    chance = random.Random(number)
    return ("a,b,c\n" + "".join(f"{value(chance)},{value(chance)},{value(chance)}\n" for _ in range(ROWS))).encode()


def names(a_shard):
    """This many names for each shard, in turn."""
    made = [[] for _ in range(SHARDS)]
    number = 0
    while min(map(len, made)) < a_shard:
        some = made[shard_of(f"t{number}", SHARDS)]
        if len(some) < a_shard:
            some.append(f"t{number}")
        number += 1
    return [some[place] for place in range(a_shard) for some in made]


def queries(times):
    chance = random.Random(0)
    return [[value(chance) for _ in range(ASKED)] for _ in range(times)]


def timed(call, *words):
    start = time.perf_counter()
    call(*words)
    return time.perf_counter() - start


def josie_memory():
    """The megabytes that all josie processes below this one hold."""
    import psutil

    return sum(child.memory_info().rss for child in psutil.Process().children(recursive=True) if child.name().startswith("josie")) / 1e6


def measure(title, lake, tables, times):
    """Loads a lake, searches it, and prints a line; returns the answers."""
    loads = sum(timed(lake.load, name, table(number)) for number, name in enumerate(tables))
    merge = timed(lake.merge)
    members = sum(entry.members for entry in lake.tables())
    answers, taken = [], []
    for asked in queries(times):
        start = time.perf_counter()
        answers.append(lake.search(asked, 10).matches)
        taken.append(1000 * (time.perf_counter() - start))
    median, most = statistics.median(taken), max(taken)
    print(f"{title:14} {members / 1e6:6.2f} M members  load {loads:7.1f} s  merge {merge:6.1f} s  "
          f"search {median:7.2f} ms (at most {most:.2f})  {josie_memory():7.0f} MB")
    return answers


def main():
    quick = "--quick" in sys.argv
    sys.argv = [word for word in sys.argv if word != "--quick"]
    given = given_words(__doc__, 50)
    try:
        from distributed import Client, LocalCluster
    except ImportError:
        sys.exit("shard_speed: Dask is not installed (Debian's package python3-distributed)")
    tables = names(QUICK_TABLES if quick else TABLES)
    with Lake(given.josie, profiles=False) as lake:
        measure("one process", lake, tables[: len(tables) // SHARDS], given.times)
    with (
        LocalCluster(n_workers=SHARDS, threads_per_worker=1, dashboard_address=None, silence_logs=logging.CRITICAL) as cluster,
        Client(cluster) as client,
        ShardedLake(client, program=given.josie) as sharded,
    ):
        found = measure("four processes", sharded, tables, given.times)
    if quick:
        with Lake(given.josie, profiles=False) as lake:
            wanted = measure("one, all tables", lake, tables, given.times)
        print("the rows of the four are those of one with all tables" if found == wanted else "THE ROWS DIFFER")


if __name__ == "__main__":
    main()
