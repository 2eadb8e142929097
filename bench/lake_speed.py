#!/usr/bin/env python3
"""How long josie takes for a load and for a drop, as the lake grows.

    bench/lake_speed.py [JOSIE] [--times N]

One script loads a lake of 1,000, of 10,000 or of 50,000 tables; each table has one column with one value, so that the addition of a table is measured and not
its text. Then the same script is run with drops after its loads, in an order that is shuffled with a fixed seed. The time of a load is that of the first
script, less the start of the program; the time of a drop is the difference between the two. A time is the least of N whole runs; both include the time in which
josie reads the command and writes its reply.

Each batch has 4,000 commands, so there is one `sync` for as many loads or drops.
"""
import random
import subprocess
import time

from program import given_words

BATCH = 4_000
SIZES = (1_000, 10_000, 50_000)
DIGITS = "abcdefghijklmnopqrstuvwxyzABCDEFGHIJKLMNOPQRSTUVWXYZ0123456789"


def name(number):
    """A short name for each number."""
    text = DIGITS[number % len(DIGITS)]
    while number >= len(DIGITS):
        number = number // len(DIGITS) - 1
        text = DIGITS[number % len(DIGITS)] + text
    return text


def batched(commands):
    """The commands, with a `sync` after each batch."""
    return "".join(command + ("sync\n" if number % BATCH == 0 else "") for number, command in enumerate(commands, 1))


def loads(tables):
    return batched([f"load {name(number)}\nv\nx\n.\n" for number in range(tables)]) + "sync\n"


def drops(tables):
    order = list(range(tables))
    random.Random(1).shuffle(order)
    return batched([f"drop {name(number)}\n" for number in order])


def least_time(times, josie, script):
    """The least wall time of some runs, in seconds. A script with a refused command measures nothing."""
    best = None
    for _ in range(times):
        start = time.perf_counter()
        ended = subprocess.run([josie, "run"], input=script.encode(), stdout=subprocess.PIPE, check=True)
        taken = time.perf_counter() - start
        if b" refused " in ended.stdout or b" no memory" in ended.stdout:
            raise SystemExit("lake_speed: a command was refused")
        best = taken if best is None else min(best, taken)
    return best


def main():
    given = given_words(__doc__, 3)
    josie = given.josie
    begin = least_time(given.times, josie, "")
    print(f"start of the program alone: {begin * 1000:.1f} ms")
    for tables in SIZES:
        loading = loads(tables)
        filled = least_time(given.times, josie, loading)
        emptied = least_time(given.times, josie, loading + drops(tables))
        load_time = (filled - begin) / tables * 1e6
        drop_time = (emptied - filled) / tables * 1e6
        print(f"{tables:6} tables: {load_time:8.2f} microseconds a load   {drop_time:8.2f} microseconds a drop")


if __name__ == "__main__":
    main()
