#!/usr/bin/env python3
"""How fast josie gathers a batch, compared with a plain copy of the same bytes, and the memory that it takes.

    bench/gather_speed.py [JOSIE] [--times N]

There is one batch of eight queries, each a block of 64 MiB: 512 MiB in all, which is the most that a batch may have. The first line of each query is not UTF-8,
so it is refused at once, and only the gathering is measured. The lines have 31 bytes, or 1,023. The plain copy reads the same file in pieces of 65,536 bytes
into one buffer in memory; it is written in Python, which only moves the bytes. A time is the least of N runs; the peak memory is the greatest that the process
held (`ru_maxrss`).
"""
import os
import resource
import subprocess
import sys
import tempfile
import time

from program import given_words

BLOCK = 67_108_864
BLOCKS = 8
PIECE = 65_536


def write_script(path, line_bytes):
    """A script of one batch of full blocks whose lines have this many bytes, including their line feeds."""
    line = b"x" * (line_bytes - 1) + b"\n"
    lines = line * (BLOCK // line_bytes)
    first = b"\xff" + lines[1:]
    rest = b"x" * (BLOCK - len(lines) - 1) + b"\n" if len(lines) < BLOCK else b""
    with open(path, "wb") as file:
        for _ in range(BLOCKS):
            file.write(b"search 1\n" + first + rest + b".\n")


def run(josie, path):
    """The wall time of a run over the script, and its peak memory in bytes, measured in a process of its own."""
    code = (
        "import resource, subprocess, sys, time\n"
        "start = time.perf_counter()\n"
        "ended = subprocess.run([sys.argv[1], 'run'], stdin=open(sys.argv[2], 'rb'), stdout=subprocess.PIPE)\n"
        "taken = time.perf_counter() - start\n"
        "refused = ended.stdout.count(b'not UTF-8')\n"
        "print(taken, resource.getrusage(resource.RUSAGE_CHILDREN).ru_maxrss * 1024, ended.returncode, refused)\n"
    )
    ended = subprocess.run([sys.executable, "-c", code, josie, path], capture_output=True, check=True, text=True)
    taken, peak, status, refused = ended.stdout.split()
    if status != "0" or int(refused) != BLOCKS:
        raise SystemExit(f"gather_speed: status {status}, {refused} queries refused")
    return float(taken), int(peak)


def copy(path):
    """The wall time of a plain copy of the file into memory."""
    buffer = bytearray(os.path.getsize(path))
    view = memoryview(buffer)
    start = time.perf_counter()
    with open(path, "rb", buffering=0) as file:
        at = 0
        while count := file.readinto(view[at:at + PIECE]):
            at += count
    return time.perf_counter() - start


def main():
    given = given_words(__doc__, 3)
    josie = given.josie
    with tempfile.TemporaryDirectory() as folder:
        path = os.path.join(folder, "batch.josie")
        for line_bytes in (32, 1024):
            write_script(path, line_bytes)
            size = os.path.getsize(path)
            runs = [run(josie, path) for _ in range(given.times)]
            taken, peak = min(taken for taken, _ in runs), min(peak for _, peak in runs)
            plain = min(copy(path) for _ in range(given.times))
            print(
                f"lines of {line_bytes:4} bytes: {size / 1e6:.0f} MB   josie {size / taken / 1e6:7.0f} MB/s   plain copy {size / plain / 1e6:7.0f} MB/s   "
                f"ratio {taken / plain:.2f}   peak {peak / 1e6:.0f} MB, {peak / size:.3f} of the batch"
            )


if __name__ == "__main__":
    main()
