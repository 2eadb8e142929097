#!/usr/bin/env python3
"""The lakes that `josie make` makes, against a plain model.

    checks/made_lakes.py [JOSIE]

The model draws the same numbers, and loads, merges, counts and sums with `plain_lake.py`. Each summary is compared byte for byte, and each lake is made
twice. It prints one line, and exits with 0 if everything is as the model says.
"""
import subprocess

from check import Wrong, main
import plain_lake

LAKES = [(0, 1, 2), (7, 40, 500), (4294967295, 3, 1), (1, 1, 1), (12, 16, 30), (99, 9, 200)]


def draws(seed):
    """The upper 16 bits of the states of a linear congruential generator."""
    state = seed
    while True:
        state = (1664525 * state + 1013904223) % 2**32
        yield state // 65536


def summary(seed, tables, rows):
    drawn = draws(seed)
    lake, members, merges, answers, found, overlap, reads, probes = plain_lake.EMPTY, 0, 0, 0, 0, 0, 0, 0
    for number in range(1, tables + 1):
        cells = [[f"v{next(drawn) % below}" for below in (64, 1024, 16384)] for _ in range(rows)]
        reply, lake, _ = plain_lake.load(lake, f"g{number}", [["a", "b", "c"], *cells])
        members += int(reply[0].split(" ")[5])
        if number % 4 == 0:
            _, lake, change = plain_lake.merge(lake, lake, False)
            merges += change is not None
    for _ in range(50):
        name, place = f"g{1 + next(drawn) % tables}", 1 + next(drawn) % 3
        _, *rows_found, work, _ = plain_lake.like(lake, 10, name, place)
        answers += 1
        found += len(rows_found)
        overlap += sum(int(line.split()[0]) for line in rows_found)
        reads += int(work.split()[2])
        probes += int(work.split()[4])
    lines = [f"tables {tables}", f"members {members}", f"merges {merges}", f"answers {answers} rows {found} overlap {overlap}", f"reads {reads} probes {probes}"]
    return "".join(line + "\n" for line in lines).encode()


def check(josie, _words):
    for lake in LAKES:
        want = summary(*lake)
        for _ in range(2):
            ended = subprocess.run([josie, "make", *map(str, lake)], stdin=subprocess.DEVNULL, capture_output=True, timeout=100)
            if ended.returncode != 0 or ended.stdout != want:
                raise Wrong(f"{lake}: want {want!r}, got {ended.stdout!r} (status {ended.returncode})")
    return f"{len(LAKES)} lakes, as the model says"


if __name__ == "__main__":
    main("made lakes", check)
