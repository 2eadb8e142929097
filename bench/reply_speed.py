#!/usr/bin/env python3
"""How fast josie writes its replies: megabytes of text per second.

    bench/reply_speed.py [JOSIE] [--times N]

A lake of 1,000 tables of one value each is loaded, and listed 1,000 times: a million lines. Then one table of 100 columns is searched for its value 2,000
times, which gives 200,000 rows with the quoted names of their columns. The time is that of the whole run, less that of the same run without what is measured;
the text is the additional output. A time is the least of N runs.
"""
import subprocess
import time

from program import given_words


def least(times, josie, script):
    """The least wall time of some runs, in seconds, and how many bytes came out."""
    best, size = None, 0
    for _ in range(times):
        start = time.perf_counter()
        ended = subprocess.run([josie, "run"], input=script.encode(), stdout=subprocess.PIPE, check=True)
        taken = time.perf_counter() - start
        best, size = taken if best is None else min(best, taken), len(ended.stdout)
    return best, size


def show(what, times, josie, before, asked):
    bare, bare_size = least(times, josie, before)
    whole, whole_size = least(times, josie, before + asked)
    size, taken = whole_size - bare_size, whole - bare
    print(f"{what}: {size / 1e6:6.1f} MB of text in {taken * 1000:7.1f} ms, {size / taken / 1e6:7.1f} MB/s")


def main():
    given = given_words(__doc__, 3)
    josie = given.josie
    tables = "".join(f"load table-{number}\nv\nx\n.\n" for number in range(1000)) + "sync\n"
    show("lists of 1,000 tables", given.times, josie, tables, "tables\n" * 1000)
    columns = "load wide\n" + ",".join(f'"column ""{place}"""' for place in range(100)) + "\n" + ",".join(["x"] * 100) + "\n.\nsync\n"
    show("answers of 100 rows  ", given.times, josie, columns, "search 100\nx\n.\n" * 2000)


if __name__ == "__main__":
    main()
