"""The arguments of a benchmark of ./josie: where the program is, how many times each run is made, and what it is compared with."""
import argparse
import os
import shlex


def given_words(about, times, has_beside=False, has_lake=False):
    """The parsed arguments: `josie`, the program's absolute path; `times`, a number of runs; and, if the benchmark takes them, `beside`, the command of
    another program, or None, and `lake`, two scripts, or None. `about` is the benchmark's docstring."""
    here = os.path.dirname(os.path.abspath(__file__))
    words = argparse.ArgumentParser(description=about.splitlines()[0])
    words.add_argument("josie", nargs="?", default=os.path.join(here, "..", "crates", "josie", "out", "josie"))
    words.add_argument("--times", type=int, default=times)
    if has_beside:
        words.add_argument("--beside", type=shlex.split, metavar="COMMAND")
    if has_lake:
        words.add_argument("--lake", nargs=2, metavar=("LOADS", "SEARCHES"))
    given = words.parse_args()
    given.josie = os.path.abspath(given.josie)
    # As `./josie` does; a program that is measured beside it gets the same.
    os.environ.setdefault("GLIBC_TUNABLES", "glibc.malloc.hugetlb=1:glibc.malloc.top_pad=67108864")
    return given
