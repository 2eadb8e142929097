#!/usr/bin/env python3
"""Tables and queries that are as long, as wide or as deep as a block can be: what josie replies, and in how much memory.

    checks/wide_input.py [JOSIE]

Each block has 67,108,864 bytes or a little less: one record, one field, 16,777,216 fields of white space and four times as many empty ones, as many in a
header, in a header with a quote and in one record behind a header, one value in each of 1,024 columns, 22 million lines, and values that grow threefold when
they are folded. The replies follow from `docs/FORMATS.md`. A run may take eight times the size of its block in memory. Two runs at a time need a minute or two
and two gigabytes, so `.ci/run` does not run it. It prints a line for each case with its time and its peak memory, and a line for all of them, and exits with 0
if everything is as stated, and otherwise with 1.
"""
import os
import subprocess
import tempfile
import time
from concurrent.futures import ThreadPoolExecutor
from typing import Iterable, NamedTuple

from check import Wrong, main

BLOCK = 67_108_864
MOST = 8  # times the block, in memory
AT_ONCE = 2  # runs
COLUMNS = 1_024
HEADER = b",".join([b"c"] * COLUMNS) + b"\n"
SPACES = b",".join([b"   "] * (COLUMNS - 1) + [b" "]) + b"\n"  # so long that 16,384 such records fit
GROWS = "\u0390".encode()  # two bytes, which folding turns into six
KIN = "\u0390\u03b0\u0ddd\ud7a3\U0001d160".encode()  # folding makes each of them three times as long


class Case(NamedTuple):
    name: str
    command: bytes
    pieces: Iterable  # of the block, each with how often it is repeated
    reply: bytes


def rows(record, front=b""):
    """A front, and as many repetitions of a record as a block can have."""
    return [(front, 1), (record, (BLOCK - len(front)) // len(record))]


def numbered_values(first, count):
    """A header and this many distinct values, each of the same beginning and eight digits. They are made as they are written: what this process holds would
    count as memory of the runs that it starts."""
    yield b"c\n", 1
    for number in range(count):
        yield first + b"%08d\n" % number, 1


def cases():
    half = BLOCK // 2 - 4
    yield Case("one record", b"load t", [(b"a,b\n", 1), (b"x", half), (b",", 1), (b"y", half), (b"\n", 1)], b"loaded t columns 2 members 2 at 1")
    yield Case("one field", b"load t", [(b"c\n", 1), (b"x", BLOCK - 3), (b"\n", 1)], b"loaded t columns 1 members 1 at 1")
    yield Case("one value to search for", b"search 1", [(b"x", BLOCK - 1), (b"\n", 1)], b"answer 0 of 1 at 0")
    yield Case("fields of white space", b"load t", [(HEADER, 1), (SPACES, 16_384)], b"loaded t columns 1024 members 0 at 1")
    yield Case("empty fields", b"load t", rows(b"," * (COLUMNS - 1) + b"\n", HEADER), b"loaded t columns 1024 members 0 at 1")
    yield Case("empty fields of a header", b"load t", [(b",", BLOCK - 1), (b"\n", 1)], b"refused csv columns %d" % BLOCK)
    yield Case("empty fields of a header with a quote", b"load t", [(b'""', 1), (b",", BLOCK - 3), (b"\n", 1)], b"refused csv columns %d" % (BLOCK - 2))
    yield Case("empty fields of one record", b"load t", [(b"c\n", 1), (b",", BLOCK - 3), (b"\n", 1)], b"refused csv record 2 want 1 got %d" % (BLOCK - 2))
    yield Case("one value a column", b"load t", rows(b",".join([b"v"] * COLUMNS) + b"\n", HEADER), b"loaded t columns 1024 members 1024 at 1")
    yield Case("lines of a table", b"load t", rows(b"ab\n", b"c\n"), b"loaded t columns 1 members 1 at 1")
    yield Case("lines of a query", b"search 1", rows(b"ab\n"), b"answer 0 of 1 at 0")
    yield Case("empty lines of a query", b"search 1", rows(b"\n"), b"answer 0 of 0 at 0")
    yield Case("one value that grows", b"load t", [(b"c\n", 1), (GROWS, (BLOCK - 3) // 2), (b"\n", 1)], b"loaded t columns 1 members 1 at 1")
    yield Case("one value to search for that grows", b"search 1", [(GROWS, (BLOCK - 1) // 2), (b"\n", 1)], b"answer 0 of 1 at 0")
    count = (BLOCK - 2) // (len(KIN) + 9)
    yield Case("values that grow", b"load t", numbered_values(KIN, count), b"loaded t columns 1 members %d at 1" % count)


def written(case, path):
    """Writes the script of a case to a file, and returns the size of its block."""
    with open(path, "wb") as file:
        file.write(case.command + b"\n")
        before = file.tell()
        for piece, count in case.pieces:
            whole = max(1, 65_536 // len(piece)) if piece else 1
            for _ in range(count // whole):
                file.write(piece * whole)
            file.write(piece * (count % whole))
        size = file.tell() - before
        file.write(b".\n")
    return size


def run(josie, path):
    """The status of a run over a script, what it writes, how many seconds it takes, and its peak memory in bytes."""
    with open(path, "rb") as script, tempfile.TemporaryFile() as out:
        begun = time.monotonic()
        child = subprocess.Popen([josie, "run"], stdin=script, stdout=out, stderr=subprocess.STDOUT)
        _, status, used = os.wait4(child.pid, 0)
        child.returncode = os.waitstatus_to_exitcode(status)
        taken = time.monotonic() - begun
        out.seek(0)
        return child.returncode, out.read(), taken, used.ru_maxrss * 1024


def tried(josie, case):
    """The figures of a case in one line, and what is not as stated, in words, or None."""
    with tempfile.TemporaryDirectory() as folder:
        path = os.path.join(folder, "script")
        size = written(case, path)
        status, text, taken, peak = run(josie, path)
    line = f"{case.name}: {taken:.1f} s, {peak / 2**20:.0f} MiB, which is {peak / size:.1f} times the block"
    if status != 0 or text != b"1 " + case.reply + b"\n":
        return line, f"{case.name}: wanted {case.reply!r}, got status {status} and {text[:200]!r}"
    return line, f"{case.name}: more than {MOST} times the block" if peak > MOST * size else None


def check(josie, _words):
    wrong = []
    with ThreadPoolExecutor(AT_ONCE) as pool:
        for line, found in pool.map(lambda case: tried(josie, case), cases()):
            print(line, flush=True)
            wrong.append(found)
    if any(wrong):
        raise Wrong("\n".join(filter(None, wrong)))
    return f"{len(wrong)} blocks, each with its reply, in at most {MOST} times its size"


if __name__ == "__main__":
    main("wide input", check)
