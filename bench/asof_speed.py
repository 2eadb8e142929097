#!/usr/bin/env python3
"""What the first search of the past costs, and each later one, compared with a search of the present.

    bench/asof_speed.py [JOSIE] [--times N]

One script loads a lake of 1,000 or of 10,000 tables, each of four columns of 20 values; each value is in about ten columns. Each query has 100 values, 18 from
each of five columns and ten others, and asks for ten rows. The present is searched with `search`: over the lake as it was loaded, one part per table, and over
the lake merged into one part. The past is searched with `asof`, over the merged lake: at the last position at which all tables lie in full blocks of 256, and
at the last position before the merge, at which some tables lie in a block that is not full. The time of a question is the CPU time of the run with all
questions less that of the run without, each the least of N whole runs, divided by the number of questions. All runs search the present for nothing first, which
builds the indexes that are missing. The first search of the past is measured by itself, and the later ones are all the others. It exits with 1 if a later
search of the past costs more than twice as much as a search of the merged lake.
"""
import functools
import random
import sys
import tempfile

from contain_speed import FIRST, least_time, questions
from program import given_words

SIZES = (1_000, 10_000)
COLUMNS, ROWS, SHARED, SIZE, MOST = 4, 20, 18, 100, 10
BLOCK = 256
QUERIES, FEW = 2_000, 100
LIMIT = 2


def made_loads(chance, tables):
    """The script of the loads, and the columns' values."""
    lines, columns = [], []
    values = tables * COLUMNS * ROWS // 10
    for table in range(tables):
        cells = [chance.sample(range(values), ROWS) for _ in range(COLUMNS)]
        columns += cells
        lines += [f"load t{table}", "a,b,c,d", *(",".join(f"value {column[row]}" for column in cells) for row in range(ROWS)), "."]
        lines += ["sync"] if table % 1_000 == 999 else []
    return "".join(line + "\n" for line in lines), columns


def made_queries(chance, columns):
    """Queries of values of five columns each, and ten others."""
    values = len(columns) * ROWS // 10
    for _ in range(QUERIES):
        held = [value for column in chance.sample(columns, SIZE // ROWS) for value in chance.sample(column, SHARED)]
        yield [f"value {number}" for number in held + chance.sample(range(values), SIZE - len(held))]


def main():
    given = given_words(__doc__, 3)
    chance = random.Random(1)
    is_slow = False
    with tempfile.TemporaryDirectory() as folder:
        measured = functools.partial(least_time, given, folder)
        for tables in SIZES:
            loads, columns = made_loads(chance, tables)
            queries = list(made_queries(chance, columns))
            few, merged, loads = queries[:FEW], loads + "merge all\nsync\n" + FIRST, loads + FIRST
            loaded, lake = measured(loads), measured(merged)
            parts = (measured(loads + questions(f"search {MOST}", few)) - loaded) / len(few) * 1e6
            present = (measured(merged + questions(f"search {MOST}", queries)) - lake) / len(queries) * 1e6
            print(f"{tables} tables: a search of the present {present:9.1f} us merged, {parts:9.1f} us as loaded", flush=True)
            for name, position, asked in (("whole blocks", tables // BLOCK * BLOCK, queries), ("a block in part", tables, queries)):
                front = f"asof {position} {MOST}"
                one = measured(merged + questions(front, asked[:1]))
                later = (measured(merged + questions(front, asked)) - one) / (len(asked) - 1) * 1e6
                print(f"  {name:15}  the first {(one - lake) * 1e6:11.1f} us   each later {later:9.1f} us, {later / present:6.2f} times merged, {later / parts:6.2f} times as loaded", flush=True)
                is_slow |= later > LIMIT * present
    sys.exit(is_slow)


if __name__ == "__main__":
    main()
