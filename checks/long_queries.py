#!/usr/bin/env python3
"""Whole runs of josie against a plain model of a lake, with queries of many values.

    checks/long_queries.py [JOSIE]

The other random scripts draw from a few words. Here each table has up to 300 of 1,500 values, some of them far more often than others, and the queries have
just below, at and just above 64 values, and 300: from 64 values on josie looks the keys of a query up together, and sorts the tokens that it finds in another
way. Most values of a query are from one column, some from others, and some from none. The lake is searched as loaded, after drops, after a merge of a few parts
and after one of all. The model is `plain_lake.py`; replies and trace, with what each search reads and probes, are compared with it byte for byte.

It prints one line, and exits with 0 if josie writes what the model says, and otherwise with 1.
"""
import tempfile

from check import Wrong, main
import plain_lake
from random_lakes import Script, difference

SEEDS = (2, 4)  # scripts with an even number are run with a trace
TABLES = 16
DROPPED = ("t3", "t7", "t11")
VALUES = 1_500
SIZES = (63, 64, 65, 300)
ROWS_ASKED = (1, 10)


def value(chance):
    """One of many values; smaller numbers come far more often."""
    return f"v{int(chance.random() ** 2 * VALUES)}"


def load(script, name):
    chance = script.chance
    columns = [f"c{place}" for place in range(chance.randint(1, 4))]
    rows = [[value(chance) for _ in columns] for _ in range(chance.randint(20, 300))]
    table = [columns] + rows
    script.update(f"load {name}", plain_lake.load(script.lake, name, table), script.block_of(table))


def query_of(script, size):
    """Distinct values, in any order: two thirds of them from one column, if it has that many, a tenth from none, and the others from anywhere."""
    chance = script.chance
    _, columns = chance.choice(script.lake.tables)
    _, keys = chance.choice(columns)
    asked = set(chance.sample(keys, min(len(keys), size * 2 // 3)))
    asked |= {f"absent {number}" for number in range(size // 10)}
    while len(asked) < size:
        asked.add(value(chance))
    return chance.sample(sorted(asked), size)


def ask(script):
    for size in SIZES:
        for most in ROWS_ASKED:
            lines = query_of(script, size)
            script.command(f"search {most}", plain_lake.search(script.lake, most, lines), lines)


def script_of(seed):
    script = Script(seed, False)
    for number in range(TABLES):
        load(script, f"t{number}")
    ask(script)
    for name in DROPPED:
        script.update(f"drop {name}", plain_lake.drop(script.lake, name))
    ask(script)
    for line, whole in (("merge", False), ("merge all", True)):
        script.update(line, plain_lake.merge(script.lake, script.lake, whole))
        ask(script)
    return script


def check(josie, _words):
    for seed in SEEDS:
        script = script_of(seed)
        with tempfile.TemporaryDirectory() as folder:
            found = difference(seed, script, josie, folder)
        if found:
            raise Wrong(found)
    return f"{len(SEEDS)} scripts, {len(SEEDS) * 4 * len(SIZES) * len(ROWS_ASKED)} searches, as the model says"


if __name__ == "__main__":
    main("long queries", check)
