#!/usr/bin/env python3
"""How much faster josie loads and searches on several lanes than on one.

    bench/lane_speed.py [JOSIE] [--times N] [--beside COMMAND] [--lake LOADS SEARCHES]

Two lakes are generated, always the same. `wide` has 128 tables of six columns and 2,000 records, and `small` has 8,000 tables of three columns and eight
records; most values are in a few tables and a few values are in many. With `--lake`, the loads and the searches of two scripts are used instead. The loads are
dealt out to 1, 2, 4, 8 and 16 lanes, a batch of 4,000 at a time: the largest first, each to the lane that has been given the fewest bytes. Then one lane merges
the whole lake, and 400 searches (3,600 with `--lake`) are dealt out, a batch of 400 at a time; in a generated lake, each asks for the 10 columns that share the
most with 1,000 values. A batch is read into memory before its lanes begin, and the next one uses that memory again, so one large batch would take longer than
several. josie reads a file and writes one, so that no harness is measured with it. The time of the loads is that of a run that only loads, and the
time of the searches is what a run with them takes longer than one without. The numbers of lanes take turns, N of them, since a machine may change its speed;
printed are the medians, and how many times as much as on one lane that is, by the medians and by the leasts. `--beside` names another program that reads the
same scripts on one lane, as a baseline.

The last row of each table is what the machine allows: as many programs at the same time as there are processors, each with one lane and a lake of its own. They
share nothing but the machine, so lanes cannot be expected to get through much more.

Last, the cost of a batch of one command is measured, with one lane and with sixteen lanes of which one has the command.
"""
import os
import random
import statistics
import subprocess
import tempfile
import threading
import time

from program import given_words

LANES = (1, 2, 4, 8, 16)
LOADS_OF_A_BATCH = 4_000
SEARCHES_OF_A_BATCH = 400
SEARCHES = 400
LAKE_SEARCHES = 3_600
LAKES = {"wide": (128, 6, 2_000), "small": (8_000, 3, 8)}
ASKED = 1_000
ONES = 2_000


def value(chance):
    """One of many values; smaller numbers come far more often."""
    return f"v{int(chance.random() ** 3 * 200_000)}"


def tables_of(lake):
    """The loads of a lake, without their lanes."""
    count, columns, rows = LAKES[lake]
    chance = random.Random(7)
    for number in range(count):
        lines = [",".join(f"c{place}" for place in range(columns))]
        lines += [",".join(value(chance) for _ in range(columns)) for _ in range(rows)]
        yield f"load t{number}\n" + "\n".join(lines) + "\n.\n"


def searches():
    chance = random.Random(11)
    return ["search 10\n" + "\n".join({value(chance) for _ in range(ASKED)}) + "\n.\n" for _ in range(SEARCHES)]


def commands_of(path):
    """The commands of a script that have a block, each with its block."""
    with open(path, encoding="utf-8", newline="") as script:
        blocks = script.read().replace("sync\n", "").split("\n.\n")
    return [block + "\n.\n" for block in blocks if block]


def dealt(commands, lanes, batch):
    """The commands, the largest of each batch first, each dealt to the lane that has been given the fewest bytes, with a `sync` after each batch."""
    text = []
    for start in range(0, len(commands), batch):
        given = [0] * lanes
        for command in sorted(commands[start : start + batch], key=len, reverse=True):
            lane = given.index(min(given))
            given[lane] += len(command)
            text.append(command if lanes == 1 else f"@{lane + 1} {command}")
        text.append("sync\n")
    return "".join(text)


class Open:
    """A program that is kept open; `timed` returns a time in seconds."""

    def __init__(self, words):
        self.process = subprocess.Popen(words, stdin=subprocess.PIPE, stdout=subprocess.PIPE)

    def timed(self, script, replies):
        """Writes a script with this many commands, and reads until its last reply has begun and its pipe is idle."""
        writer = threading.Thread(target=self._write, args=(script.encode(),))
        start = time.perf_counter()
        writer.start()
        seen = 0
        while seen < replies:
            line = self.process.stdout.readline()
            if b" refused " in line or b" no memory" in line:
                raise SystemExit(f"lane_speed: {line.decode()}")
            seen += not line.startswith(b"  ")
        writer.join()
        return time.perf_counter() - start

    def _write(self, data):
        self.process.stdin.write(data)
        self.process.stdin.flush()

    def close(self):
        self.process.stdin.close()
        self.process.stdout.read()
        self.process.wait()


def run_time(words, script, programs=1):
    """The seconds of some runs of the program at the same time, all over one script, from their start to the end of the last."""
    with tempfile.NamedTemporaryFile() as given, tempfile.TemporaryFile() as taken:
        given.write(script.encode())
        given.flush()
        streams = [open(given.name, "rb") for _ in range(programs)]
        start = time.perf_counter()
        runs = [subprocess.Popen(words, stdin=stream, stdout=taken if stream is streams[0] else subprocess.DEVNULL) for stream in streams]
        ends = [run.wait() for run in runs]
        seconds = time.perf_counter() - start
        for stream in streams:
            stream.close()
        taken.seek(0)
        replies = taken.read()
    if any(ends) or b" refused " in replies or b" no memory" in replies:
        raise SystemExit("lane_speed: a command was refused")
    return seconds


class Course:
    """A program on some lanes, or several such programs at the same time, and the seconds that its runs took."""

    def __init__(self, name, words, lanes, loads, asked, programs=1):
        self.name = name
        self.words = words + (["--lanes", str(lanes)] if lanes > 1 else [])
        self.programs = programs
        loading = dealt(loads, lanes, LOADS_OF_A_BATCH)
        merging = loading + "merge all\nsync\n"
        self.scripts = (loading, merging, merging + dealt(asked, lanes, SEARCHES_OF_A_BATCH))
        self.taken = ([], [], [])

    def turn(self):
        for script, taken in zip(self.scripts, self.taken):
            taken.append(run_time(self.words, script, self.programs))

    def seconds(self, pick):
        """The seconds of the loads, and of the searches after them and after a merge of the whole lake, by the median or the least of each."""
        loaded, merged, searched = map(pick, self.taken)
        return loaded, searched - merged


def one_command(josie, lanes):
    """The seconds of a batch of one command."""
    program = Open([josie, "run", "--lanes", str(lanes)])
    taken = [program.timed("tables\nsync\n", 1) for _ in range(ONES)]
    program.close()
    return sorted(taken)[ONES // 2]


def lakes(given):
    """The lakes that are measured: the name, the loads and the searches of each."""
    if given.lake:
        loads, asked = map(commands_of, given.lake)
        times = -(-LAKE_SEARCHES // len(asked))
        return [("lake", loads, (asked * times)[:LAKE_SEARCHES])]
    asked = searches()
    return [(lake, list(tables_of(lake)), asked) for lake in LAKES]


def measure(given, loads, asked):
    """The courses over a lake, after each had as many turns as are asked for."""
    count = os.cpu_count() or 1
    courses = [Course("beside", given.beside, 1, loads, asked)] if given.beside else []
    courses += [Course(str(lanes), [given.josie, "run"], lanes, loads, asked) for lanes in LANES]
    courses += [Course(f"{count} programs", [given.josie, "run"], 1, loads, asked, count)]
    for _ in range(given.times):
        for course in courses:
            course.turn()
    return courses


def times_of(one, course, part):
    """How many times as much as on one lane a course gets through, by the medians and by the leasts; `part` is 0 for the loads and 1 for the searches."""
    ratios = (course.programs * one.seconds(pick)[part] / course.seconds(pick)[part] for pick in (statistics.median, min))
    return " ".join(f"{ratio:7.2f}" for ratio in ratios)


def main():
    given = given_words(__doc__, 5, has_beside=True, has_lake=True)
    for lake, loads, asked in lakes(given):
        size = sum(map(len, loads)) / 1e6
        print(f"{lake}: {len(loads)} tables, {size:.1f} MB of CSV, {len(asked)} searches")
        print(f"{'lanes':>12} {'MB/s':>8} {'times one':>15} {'searches/s':>12} {'times one':>15}")
        courses = measure(given, loads, asked)
        one = next(course for course in courses if course.name == "1")
        for course in courses:
            loading, searching = (course.programs / taken for taken in course.seconds(statistics.median))
            print(f"{course.name:>12} {size * loading:8.1f} {times_of(one, course, 0)} {len(asked) * searching:12.0f} {times_of(one, course, 1)}", flush=True)
    print(f"a batch of one command: {one_command(given.josie, 1) * 1e6:.0f} microseconds with one lane, {one_command(given.josie, 16) * 1e6:.0f} with sixteen")


if __name__ == "__main__":
    main()
