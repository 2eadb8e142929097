#!/usr/bin/env python3
"""The worked runs: what josie writes for the scripts and command lines of `checks/runs`, each a folder named for what it shows.

    checks/worked_runs.py [JOSIE] [NAME ..]

A folder has the arguments (`args`, one per line), standard input (`stdin`, empty if it is missing), the expected output (`stdout`, or `stdout.pattern`, a
regular expression), the exit status if it is not 0 (`status`), the line on standard error if it is stated (`stderr`), and the files in the folder where josie
runs (`data/`). What is expected was worked out by hand from the definitions, never taken from the program. With names, only these runs are made. It prints a
line for each run that fails, and a line for all of them, and exits with 0 if none failed.
"""
import os
import re
import subprocess
import tempfile

from check import Wrong, main

HERE = os.path.dirname(os.path.abspath(__file__))
RUNS = os.path.join(HERE, "runs")


def read(folder, name, default=None):
    """The bytes of a file of the folder, or the default if there is none."""
    path = os.path.join(folder, name)
    if not os.path.exists(path):
        return default
    with open(path, "rb") as file:
        return file.read()


def differences(josie, folder):
    """What differs from what is expected, one line for each difference."""
    words = read(folder, "args").split(b"\n")[:-1]
    data = os.path.join(folder, "data")
    with tempfile.TemporaryDirectory() as empty:
        try:
            ran = subprocess.run(
                [os.fsencode(josie)] + words,
                input=read(folder, "stdin", b""),
                capture_output=True,
                cwd=data if os.path.isdir(data) else empty,
                timeout=120,
            )
        except subprocess.TimeoutExpired:
            return ["it ran for more than 120 seconds"]
    found = []
    wanted = read(folder, "stdout")
    if wanted is not None and ran.stdout != wanted:
        found.append(f"stdout: wanted {wanted!r}, got {ran.stdout!r}")
    pattern = read(folder, "stdout.pattern")
    if pattern is not None and not re.fullmatch(pattern.rstrip(b"\n"), ran.stdout.rstrip(b"\n")):
        found.append(f"stdout: wanted the pattern {pattern!r}, got {ran.stdout!r}")
    status = int(read(folder, "status", b"0"))
    if ran.returncode != status:
        found.append(f"status: wanted {status}, got {ran.returncode}")
    line = read(folder, "stderr")
    if line is not None and ran.stderr != line:
        found.append(f"stderr: wanted {line!r}, got {ran.stderr!r}")
    return found


def check(josie, names):
    names = names or sorted(os.listdir(RUNS))
    wrong = [f"{name}: {line}" for name in names for line in differences(josie, os.path.join(RUNS, name))]
    if wrong:
        raise Wrong("\n".join(wrong))
    return f"{len(names)} runs, as they were worked out"


if __name__ == "__main__":
    main("worked runs", check)
