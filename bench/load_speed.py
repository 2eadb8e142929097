#!/usr/bin/env python3
"""How fast josie loads a table: megabytes of CSV per second, compared with a plain pass over the same bytes.

    bench/load_speed.py [JOSIE] [--times N]

The table is generated, always the same, and has 16 MiB including its two command lines (a block may have 64). Two tables are measured: one whose values are
ASCII, and one in which every fourth value has accents or full-width letters, so that its keys take more work. A time is the least of N whole runs of the
program, including its start, which is also shown by itself. The plain pass is `wc -w` over the same bytes, in the C locale: it looks at each byte once and
keeps nothing. josie is measured with each of its two profiles. The last number is for Python's csv and unicodedata doing the same work as josie: records, keys,
distinct values.
"""
import csv
import io
import os
import random
import subprocess
import time
import unicodedata

from program import given_words

MOST_BYTES = 16 * 1_048_576
ASCII_WORDS = "amber basalt cedar delta ember fjord garnet heron iris juniper kelp linden maple nectar onyx pearl".split()
OTHER_WORDS = ["Zürich", "Malmo\u0308", "Straße", "ΑΘΗΝΑΣ", "İzmir", "ＬＩＭＡ", "São Paulo", "Łódź"]
COLUMNS = 8


def table(other_words):
    """A script of at most `MOST_BYTES` bytes, which loads a table of eight columns and asks one search."""
    chance = random.Random(1)
    head, tail = b"load speed\n", b".\nsearch 1\namber 1\n.\n"
    rows = [",".join(f"column {place}" for place in range(1, COLUMNS + 1)).encode()]
    size = len(head) + len(tail) + len(rows[0]) + 1
    while True:
        cells = []
        for place in range(COLUMNS):
            other = other_words and chance.random() < 0.25
            word = chance.choice(OTHER_WORDS if other else ASCII_WORDS)
            cells.append(f"{word} {int(chance.paretovariate(0.5)) % 10 ** (place + 1)}")
        row = ",".join(cells).encode()
        if size + len(row) + 1 > MOST_BYTES:
            return head + b"\n".join(rows) + b"\n" + tail
        rows.append(row)
        size += len(row) + 1


def least_time(times, command, data):
    """The least wall time of some runs, in seconds."""
    best = None
    for _ in range(times):
        start = time.perf_counter()
        subprocess.run(command, input=data, stdout=subprocess.PIPE, check=True, env={**os.environ, "LC_ALL": "C"})
        taken = time.perf_counter() - start
        best = taken if best is None else min(best, taken)
    return best


def key(value):
    return unicodedata.normalize("NFD", unicodedata.normalize("NFD", value.strip()).casefold())


def python_time(times, data):
    """The least time in which Python's csv and unicodedata make the sets of the same table."""
    text = data.decode().split("\n", 1)[1].rsplit("\n.\n", 2)[0]
    best = None
    for _ in range(times):
        start = time.perf_counter()
        records = csv.reader(io.StringIO(text, newline=""))
        next(records)
        sets = [set() for _ in range(COLUMNS)]
        for record in records:
            for members, value in zip(sets, record):
                members.add(key(value))
        taken = time.perf_counter() - start
        best = taken if best is None else min(best, taken)
    return best


def main():
    given = given_words(__doc__, 5)
    begin = least_time(given.times, [given.josie, "run"], b"")
    print(f"start of the program alone: {begin * 1000:.1f} ms")
    for name, other_words in (("ASCII values", False), ("one value in four beyond ASCII", True)):
        data = table(other_words)
        whole = least_time(given.times, [given.josie, "run"], data)
        second = least_time(given.times, [given.josie, "run", "--profile", "2"], data)
        plain = least_time(given.times, ["wc", "-w"], data)
        python = python_time(given.times, data)
        size = len(data) / 1e6
        print(f"{name}: {size:.2f} MB")
        print(f"  josie       {size / whole:8.1f} MB/s   {whole * 1000:8.1f} ms")
        print(f"  profile 2   {size / second:8.1f} MB/s   {second * 1000:8.1f} ms")
        print(f"  plain pass  {size / plain:8.1f} MB/s   {plain * 1000:8.1f} ms")
        print(f"  Python csv  {size / python:8.1f} MB/s   {python * 1000:8.1f} ms")


if __name__ == "__main__":
    main()
