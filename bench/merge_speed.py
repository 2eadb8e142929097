#!/usr/bin/env python3
"""How long `merge all` takes per member of the lake, and how much memory it needs, as the lake grows tenfold.

    bench/merge_speed.py [JOSIE] [--times N] [--beside COMMAND]

One script loads a lake of a hundred tables with four columns each, of 10,000, 100,000 or 1,000,000 members in all; each value is in about ten columns. Then the
same script is run with `merge all` at its end. The time of the merge is the difference of the two, each the least of N whole runs, divided by the number of
members; the memory is the greatest that the whole run held, for the loads alone and with the merge. COMMAND is another program that reads such scripts and
writes such replies, and is measured for comparison.
"""
import os
import random
import subprocess
import sys
import tempfile

from program import given_words

TABLES = 100
COLUMNS = 4
SIZES = (10_000, 100_000, 1_000_000)


def loads(members):
    """The script of the loads."""
    chance = random.Random(members)
    rows = members // (TABLES * COLUMNS)
    lines = []
    for table in range(TABLES):
        cells = [chance.sample(range(rows * TABLES * COLUMNS // 10), rows) for _ in range(COLUMNS)]
        lines += [f"load t{table}", "a,b,c,d"]
        lines += [",".join(f"value {column[row]}" for column in cells) for row in range(rows)]
        lines += ["."]
        lines += ["sync"] if table % 10 == 9 else []
    return "".join(line + "\n" for line in lines)


def measured(times, command, path):
    """The least CPU time of some runs over a script in seconds, and the greatest memory of one in bytes, each measured in a process of its own."""
    code = (
        "import resource, subprocess, sys\n"
        "ended = subprocess.run(sys.argv[2:], stdin=open(sys.argv[1], 'rb'), stdout=subprocess.PIPE)\n"
        "usage = resource.getrusage(resource.RUSAGE_CHILDREN)\n"
        "refused = b' refused ' in ended.stdout or b' no memory' in ended.stdout\n"
        "print(usage.ru_utime + usage.ru_stime, usage.ru_maxrss * 1024, ended.returncode or int(refused))\n"
    )
    runs = []
    for _ in range(times):
        ended = subprocess.run([sys.executable, "-c", code, path, *command], capture_output=True, check=True, text=True)
        taken, peak, failed = ended.stdout.split()
        if failed != "0":
            sys.exit("merge_speed: a command was refused")
        runs.append((float(taken), int(peak)))
    return min(taken for taken, _ in runs), max(peak for _, peak in runs)


def main():
    given = given_words(__doc__, 3, has_beside=True)
    with tempfile.TemporaryDirectory() as folder:
        for members in SIZES:
            paths = [os.path.join(folder, name) for name in ("loads", "merge")]
            script = loads(members)
            for path, text in zip(paths, (script, script + "merge all\n")):
                with open(path, "w", encoding="ascii") as file:
                    file.write(text)
            for command in [[given.josie, "run"], *([given.beside] if given.beside else [])]:
                (loaded, loaded_peak), (merged, merged_peak) = [measured(given.times, command, path) for path in paths]
                print(
                    f"{members:8} members: {(merged - loaded) / members * 1e9:7.1f} ns a member   "
                    f"peak {loaded_peak / 2**20:6.1f} MiB loaded, {merged_peak / 2**20:6.1f} MiB merged   {os.path.basename(command[0])}",
                    flush=True,
                )


if __name__ == "__main__":
    main()
