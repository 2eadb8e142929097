#!/usr/bin/env python3
"""Runs and checks of josie in which one allocation is refused: the first, the second, and so on, up to the last.

    checks/refused_memory.py [JOSIE]

The scripts are worked runs and examples, on one lane or on several in a stated order, each run with a trace. A command that runs out of memory is answered
`no memory` and changes nothing: every other reply, and the journal, must be right by the model of `plain_trace.py`, with that command left out. A run that
itself runs out of memory ends with status 5, and what it wrote must be the right replies to its first batches. Then the trace of each run is checked in the
same way: a check that runs out of memory ends with status 5 and without a verdict. The library that refuses allocations is built from `refuse_allocation.c` by
the C compiler `cc`, and loaded before the C library. It prints one line, and exits with 0 if everything is right.
"""
import os
import shlex
import shutil
import subprocess
import tempfile
from collections import Counter

from check import HERE, Wrong, main
from plain_trace import NO_MEMORY, checked, numbered, parted, placed

RUNS = ["runs/one_read_and_one_probe", "runs/drop_between_plan_and_swap", "runs/real_tables"]
EXAMPLES = ["refresh", "race.2", "contain", "asof"]
WITH_BLOCK = ("load", "replace", "search", "contain", "asof")


def text_of(*names):
    with open(os.path.join(HERE, *names), encoding="utf-8", newline="") as file:
        return file.read()


def cases():
    """The name of each case, its words, and its script."""
    for run in RUNS:
        yield run, text_of(run, "args").split("\n")[:-1], text_of(run, "stdin")
    for example in EXAMPLES:
        folder = os.path.join("..", "examples")
        yield example, shlex.split(text_of(folder, example + ".words")), text_of(folder, example.split(".")[0] + ".josie")


def batches_of(script):
    """The batches of a script, each command a lane, its words and its block."""
    batches, lines = [[]], iter(script.split("\n"))
    for line in lines:
        if not line or line.startswith("#"):
            continue
        if line == "sync":
            batches.append([])
            continue
        lane, words = (line[1:].split(" ", 1) if line.startswith("@") else ("1", line))
        block = None
        if words.split(" ")[0] in WITH_BLOCK:
            block = [text[text.startswith("."):] for text in iter(lines.__next__, ".")]
        batches[-1].append((int(lane), words, block))
    return batches if batches[-1] else batches[:-1]


def refused_run(josie, library, words, script, number):
    """A run whose allocation with this number is refused, and whether it made that many."""
    reads, writes = os.pipe()
    with open(reads, "rb") as told:
        try:
            environment = {**os.environ, "LD_PRELOAD": library, "REFUSE_ALLOCATION": str(number), "REFUSE_TELLS": str(writes)}
            ended = subprocess.run([josie, *words], input=script.encode(), capture_output=True, env=environment, pass_fds=[writes], timeout=60)
        finally:
            os.close(writes)
        return ended, told.read() != b""


def check_ended(ended, batches):
    """Checks what a run wrote, and returns how many of its commands ran out of memory, and whether the run itself did."""
    if ended.returncode not in (0, 5) or ended.returncode == 5 and ended.stderr != b"josie: no memory\n":
        raise Wrong(f"status {ended.returncode}")
    lines, journal = parted(ended.stdout.decode())
    if (journal is None) != (ended.returncode == 5):
        raise Wrong("the journal is written at the end, and only there")
    written = [batch for batch in batches if all(command.number in lines for command in batch)]
    commands = [command for batch in written for command in batch]
    if list(lines) != [command.number for command in commands] or journal is not None and len(written) != len(batches):
        raise Wrong(f"replies to {list(lines)}")
    refused = [command for command in commands if lines[command.number] == NO_MEMORY]
    checked([placed(command, lines[command.number]) for command in commands if command not in refused], journal, len(written))
    return len(refused), ended.returncode == 5


def check_case(josie, library, name, words, script):
    """How many allocations were refused, and how many commands and how many runs ran out of memory."""
    counts = Counter()
    batches = numbered(batches_of(script), "--merge" in words)
    words = words if "--trace" in words else [*words, "--trace"]
    while True:
        ended, was_refused = refused_run(josie, library, words, script, counts["allocations"] + 1)
        try:
            commands, run = check_ended(ended, batches)
            if not was_refused and (commands or run):
                raise Wrong("no allocation was refused")
        except Wrong as wrong:
            raise Wrong(f"{name}: allocation {counts['allocations'] + 1}: wrote\n{ended.stdout.decode()}{ended.stderr.decode()}{wrong}") from None
        if not was_refused:
            return counts
        counts.update(allocations=1, commands=commands, runs=run)


def options_of(words):
    """The options of a run that its check takes too: no order and no trace."""
    order = words.index("--order") if "--order" in words else len(words)
    return [word for word in words[1:order] + words[order + 2:] if word != "--trace"]


def check_verdicts(josie, library, folder, case):
    """How many allocations were refused in the checks of a case's trace. Each of these checks ends without a verdict, or with the right one."""
    name, words, script = case
    path = os.path.join(folder, "trace")
    with open(path, "wb") as trace:
        subprocess.run([josie, *words, *([] if "--trace" in words else ["--trace"])], input=script.encode(), stdout=trace, check=True, timeout=60)
    number, was_refused = 0, True
    while was_refused:
        number += 1
        ended, was_refused = refused_run(josie, library, ["check", path, *options_of(words)], script, number)
        got = (ended.returncode, ended.stdout)
        if got != (0, b"yes\n") and (got != (5, b"") or not was_refused):
            raise Wrong(f"{name}: the check of its trace, allocation {number}: {got}, {ended.stderr}")
    return number - 1


def check(josie, _words):
    compiler = shutil.which("cc")
    if compiler is None:
        return "skipped, as there is no C compiler"
    with tempfile.TemporaryDirectory() as folder:
        library = os.path.join(folder, "refuse_allocation.so")
        subprocess.run([compiler, "-O1", "-shared", "-fPIC", "-o", library, os.path.join(HERE, "refuse_allocation.c")], check=True)
        counts = sum((check_case(josie, library, *case) for case in cases()), Counter())
        verdicts = sum(check_verdicts(josie, library, folder, case) for case in cases())
    return (
        f"{counts['allocations']} allocations refused, of which {counts['commands']} were answered by a command and {counts['runs']} ended the run; "
        f"nothing else was lost; {verdicts} refused to checks of the traces, none of which changed a verdict"
    )


if __name__ == "__main__":
    main("refused memory", check)
