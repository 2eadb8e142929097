#!/usr/bin/env python3
"""The replies to a batch are written before the next batch is read.

    checks/early_reply.py [JOSIE]

josie is kept open as a co-process: each batch is sent only when all replies to the batch before it have been read. It prints one line, and exits with 0 if each
reply came in time.
"""
import os
import select
import subprocess
import time

from check import Wrong, main

BATCHES = [
    (b"load t\nc\nx\n.\nsync\n", b"1 loaded t columns 1 members 1 at 1\n"),
    (b"search 1\nx\n.\ntables\nsync\n", b"2 answer 1 of 1 at 1\n  1 t 1 \"c\"\n3 tables 1 at 1\n  t columns 1 members 1\n"),
    (b"drop t\nsync\n", b"4 dropped t at 2\n"),
]


def read(pipe, size, seconds):
    """At most this many bytes of the pipe: those that come within this time."""
    end = time.monotonic() + seconds
    got = b""
    while len(got) < size:
        ready, _, _ = select.select([pipe], [], [], max(0, end - time.monotonic()))
        piece = os.read(pipe.fileno(), size - len(got)) if ready else b""
        if not piece:
            break
        got += piece
    return got


def talk(josie):
    """What is wrong with the replies, or None."""
    child = subprocess.Popen([josie, "run"], stdin=subprocess.PIPE, stdout=subprocess.PIPE)
    for number, (batch, wanted) in enumerate(BATCHES, 1):
        child.stdin.write(batch)
        child.stdin.flush()
        got = read(child.stdout, len(wanted), 20)
        if got != wanted:
            child.kill()
            return f"batch {number}: {got!r}"
    rest, _ = child.communicate(timeout=20)
    return f"after the last batch: {rest!r}" if rest else None


def check(josie, _words):
    wrong = talk(josie)
    if wrong:
        raise Wrong(wrong)
    return f"{len(BATCHES)} batches, each sent when the replies to the one before it were read"


if __name__ == "__main__":
    main("early reply", check)
