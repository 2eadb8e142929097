#!/usr/bin/env python3
"""How fast the index of one table is built, and the memory that it takes, at sizes that grow tenfold.

    bench/build_speed.py [INDEX_BENCH] [--times N]

It runs `index_bench COLUMNS ROWS` for tables of 10,000, 100,000 and 1,000,000 members in 10 columns, and prints the nanoseconds per member that
`segment_build::build` took, as the program measures it: the least of N runs. This is the time of the index alone.

The memory is what the index alone holds at its peak: the program writes one line when the table and its keys have been made, and one when the index has been
built. A counter that wraps the C library's allocator (compiled by `cc` into a folder that is removed again) counts the bytes that the program holds; what is
printed is the most between the two lines, less the bytes at the first, per member. So text and keys are not included. It is printed for two tables with the
same number of members: with 10 columns there is one distinct key for every five members, with 100 columns one for every fifty, which separates what a distinct
key takes from what a member takes. Without `cc` a dash is printed.
"""
import argparse
import os
import shutil
import subprocess
import tempfile

FEW, MANY = 10, 100
SIZES = (10_000, 100_000, 1_000_000)

# Counts the bytes that a program holds. At the second write to standard output it prints the most since the first, on standard error.
COUNTER = """
#define _GNU_SOURCE
#include <errno.h>
#include <malloc.h>
#include <stdio.h>
#include <sys/syscall.h>
#include <unistd.h>
void *__libc_malloc(size_t);
void *__libc_calloc(size_t, size_t);
void *__libc_realloc(void *, size_t);
void *__libc_memalign(size_t, size_t);
void __libc_free(void *);
static long held, most, first, writes;
static void *more(void *p) {
    held += malloc_usable_size(p);
    if (held > most) most = held;
    return p;
}
static void less(void *p) { held -= malloc_usable_size(p); }
void *malloc(size_t n) { return more(__libc_malloc(n)); }
void *calloc(size_t n, size_t m) { return more(__libc_calloc(n, m)); }
void *realloc(void *p, size_t n) { less(p); return more(__libc_realloc(p, n)); }
void *memalign(size_t a, size_t n) { return more(__libc_memalign(a, n)); }
void *aligned_alloc(size_t a, size_t n) { return more(__libc_memalign(a, n)); }
int posix_memalign(void **p, size_t a, size_t n) { return (*p = more(__libc_memalign(a, n))) ? 0 : ENOMEM; }
void free(void *p) { less(p); __libc_free(p); }
ssize_t write(int to, const void *bytes, size_t n) {
    if (to == 1 && writes++ == 0) first = most = held;
    else if (to == 1) dprintf(2, "%ld\\n", most - first);
    return syscall(SYS_write, to, bytes, n);
}
"""


def command(program, columns, members):
    return [program, str(columns), str(members // columns)]


def nanoseconds(program, members):
    """The nanoseconds that a member took, as the program prints them."""
    words = subprocess.run(command(program, FEW, members), stdout=subprocess.PIPE, check=True).stdout.split()
    if words[:2] != [b"members", str(members).encode()]:
        raise SystemExit(f"build_speed: {members} members asked for, and got {b' '.join(words).decode()}")
    return int(words[3])


def counter(folder):
    """The counter, built in this folder, or None if there is no compiler."""
    compiler = shutil.which("cc")
    if compiler is None:
        return None
    source, built = os.path.join(folder, "counter.c"), os.path.join(folder, "counter.so")
    with open(source, "w", encoding="ascii") as file:
        file.write(COUNTER)
    subprocess.run([compiler, "-O2", "-fno-builtin", "-shared", "-fPIC", "-o", built, source], check=True)
    return built


def index_bytes(program, columns, members, counting):
    """The most that the index holds beyond the table, for each member, as text."""
    if counting is None:
        return "-"
    settings = dict(os.environ, LD_PRELOAD=counting)
    run = subprocess.run(command(program, columns, members), capture_output=True, check=True, env=settings)
    return f"{int(run.stderr.split()[0]) / members:.1f}"


def main():
    here = os.path.dirname(os.path.abspath(__file__))
    words = argparse.ArgumentParser(description=__doc__.splitlines()[0])
    built = os.path.join(here, "..", "crates", "index_bench", "out", "index_bench")
    words.add_argument("index_bench", nargs="?", default=built)
    words.add_argument("--times", type=int, default=3)
    given = words.parse_args()
    program = os.path.abspath(given.index_bench)
    print("members   nanoseconds a member   bytes a member, a distinct key for five   for fifty")
    with tempfile.TemporaryDirectory() as folder:
        counting = counter(folder)
        for members in SIZES:
            each = min(nanoseconds(program, members) for _ in range(given.times))
            few, many = (index_bytes(program, columns, members, counting) for columns in (FEW, MANY))
            print(f"{members:7}   {each:20}   {few:>38}   {many:>9}")


if __name__ == "__main__":
    main()
