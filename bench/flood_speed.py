#!/usr/bin/env python3
"""What a column, a query and watched queries cost if their keys were chosen to collide, compared with random keys.

    bench/flood_speed.py [JOSIE] [--times N]

A table of one column of 1,000,000 keys is loaded; then a query of the same keys is asked; and the table is loaded while four queries are watched that have a
quarter of the keys each. In the slots by which a column or a query finds its keys while it is read, all keys of the first flood have the same hash
(`FoldHasher`: after a front that makes its state equal to the eight bytes that follow, these eight bytes have no effect). In the second, a hundred keys each have
the same hash: few enough that no look-up visits more slots than it may. Segments and watched queries find keys by SipHash-1-3, for which no way is known to
choose many keys of one hash, so there is no flood of these.

The random keys are of the same length as those of the flood, and have the same front but for one letter. Keys come in random order. A time is the least CPU
time of N whole runs, in which the flood and the random keys take turns; that of a search is a fifth of what a run with five of them takes beyond the load, of
which the first builds the index, and that of the watched queries (to read them, to index them and to find their rows) is what the run with them takes beyond
it.
It exits with 1 if a flood takes more than twice the time of the random keys that it is compared with.
"""
import os
import random
import string
import sys
import tempfile

from merge_speed import measured
from program import given_words

KEYS, LETTERS = 1_000_000, string.ascii_lowercase
FRONT, FREE, TAIL = 24, 8, 16  # letters of a key: a front, letters without effect on the hash, and a tail in the second flood
GROUP = 100  # keys of one tail
SEARCHES = 5
QUERIES, MOST = 4, 10
FOLD_START, FOLD_FACTOR, WORD = 0x243F6A8885A308D3, 0x9E3779B97F4A7C15, (1 << 64) - 1  # of FoldHasher, which takes sixteen bytes at a time
PLAIN = set((string.ascii_lowercase + string.digits + "!#$%&'()*+-./:;<=>?@[\\]^_`{|}~").encode())  # what is in a key as it is in a value of a table
LIMIT = 2


def letters(chance, count):
    return "".join(chance.choices(LETTERS, k=count))


def keys_of(chance, front, tails):
    """Keys with this front, random letters behind it, and each of these tails equally often."""
    keys = set()
    while len(keys) < KEYS:
        keys.add(front + letters(chance, FREE) + tails[len(keys) % len(tails)])
    return chance.sample(sorted(keys), KEYS)


def silent_front(chance, size):
    """Sixteen letters, and eight bytes that equal the state of FoldHasher after them: in a key of `size` bytes, its state is 0 after any eight bytes behind these."""
    while True:
        text = letters(chance, FRONT - 8)
        first, last = (int.from_bytes(text[at : at + 8].encode(), "little") for at in (0, 8))
        product = (first ^ (FOLD_START + size & WORD)) * (last ^ FOLD_FACTOR)
        after = (product & WORD ^ product >> 64).to_bytes(8, "little")
        if PLAIN.issuperset(after):
            return text + after.decode()


def changed(front):
    """Almost the same front: the state of FoldHasher is not 0 after it."""
    return front[:15] + ("y" if front[15] != "y" else "z") + front[16:]


def written(folder, name, text):
    path = os.path.join(folder, name)
    with open(path, "w", encoding="ascii") as file:
        file.write(text)
    return path


def runs_of(josie, folder, name, keys):
    """The words and the script of each run with these keys: the load, the load and some searches, and the load with watched queries."""
    lines = [key + "\n" for key in keys]
    load = f"load t\nc\n{''.join(lines)}.\n"
    alone = written(folder, f"{name}-load", load)
    both = written(folder, f"{name}-search", load + f"sync\nsearch {MOST}\n{''.join(lines)}.\n" * SEARCHES)
    queries = [written(folder, f"{name}-q{number}", "".join(lines[number::QUERIES])) for number in range(QUERIES)]
    return (([josie, "run"], alone), ([josie, "run"], both), ([josie, "watch", str(MOST), *queries], alone))


def times(given, folder, flood, usual):
    """For the keys of a flood and for the usual ones: the times of the load, of the search, and of the watched queries.

    The runs with the two lists of keys alternate, so that a machine which changes its speed slows down both.
    """
    runs = [runs_of(given.josie, folder, name, keys) for name, keys in (("flood", flood), ("usual", usual))]
    least = [[float("inf")] * len(own) for own in runs]
    for _ in range(given.times):
        for what in range(len(runs[0])):
            for own, best in zip(runs, least):
                words, path = own[what]
                best[what] = min(best[what], measured(1, words, path)[0])
    return [(loaded, (searched - loaded) / SEARCHES, watched - loaded) for loaded, searched, watched in least]


def main():
    given = given_words(__doc__, 3)
    chance = random.Random(1)
    tails = [letters(chance, TAIL) for _ in range(KEYS // GROUP)]
    is_slow = False
    print("seconds of CPU, and beside random keys:")
    with tempfile.TemporaryDirectory() as folder:
        for name, ends in (("one hash in the slots", [""]), (f"groups of {GROUP} of one hash in the slots", tails)):
            size = FRONT + FREE + len(ends[0])
            front = silent_front(chance, size)
            flood, plain = times(given, folder, keys_of(chance, front, ends), keys_of(chance, changed(front), ends))
            print(f"  {KEYS:,} keys of {size} bytes, {name}:")
            for what, slow, usual in zip(("a load", "a search", "watched queries"), flood, plain):
                print(f"    {what} {slow:.2f}, {slow / usual:.2f} times {usual:.2f}")
                is_slow |= slow > LIMIT * usual
    sys.exit(is_slow)


if __name__ == "__main__":
    main()
