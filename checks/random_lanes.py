#!/usr/bin/env python3
"""Runs of josie on threads, on random scripts: each trace is shown to be right by a plain model, and each run is replayed in the order that its trace shows.

    checks/random_lanes.py [--all] [JOSIE]

Random scripts of loads, drops, replaces, lists, searches and merges on two to sixteen lanes, with a merger and without, are run without a stated order. Each
trace must be right by the model of `plain_trace.py`: its replies, its journal, and the positions along each lane. Then the order of the steps that the trace
shows is stated with `--order`, and that run, on one thread, must give the same bytes. The seeds are fixed, but not the order in which threads run. With `--all`
there are twenty thousand scripts. It prints one line, and exits with 0 if everything is right.
"""
import random
import subprocess
import sys

from check import Wrong, main
from plain_trace import checked, numbered, parted, placed
from random_orders import random_batches, script_of

SCRIPTS = 400
ALL_SCRIPTS = 20000


def steps_of(reply):
    """The steps of a command, each as the length of the journal before it, and whether it makes an entry; None if the reply does not show it."""
    last = (reply.at - reply.is_entry if reply.at is not None else None, reply.is_entry)
    if not reply.command.words.startswith(("search", "like", "contain", "merge")):
        return [last]
    if reply.command.words.startswith("merge") and not reply.lines[0].startswith("refused nothing"):
        return [(reply.pinned, False), last]
    return [(reply.pinned, False), (None, False)]


def order_of(replies, ends):
    """The order of the steps of each batch that the replies show."""
    pieces, length = [], 0
    for batch, end in enumerate(ends):
        todo = {}
        for reply in replies:
            if reply.command.batch == batch:
                todo.setdefault(reply.command.lane, []).extend(steps_of(reply))
        piece = []
        while any(todo.values()):
            # steps at this length that make no entry come first, and then the entry
            ready = [lane for lane, steps in todo.items() if steps and not steps[0][1] and steps[0][0] in (None, length)]
            ready = ready or [lane for lane, steps in todo.items() if steps and steps[0] == (length, True)]
            if not ready:
                raise Wrong(f"no order of steps has this trace: {todo} at {length} of {end}")
            length += todo[ready[0]].pop(0)[1]
            piece.append(ready[0])
        pieces.append(piece)
    return "/".join(",".join(map(str, piece)) for piece in pieces)


def run(josie, words, script):
    return subprocess.run([josie, "run", *words], input=script.encode(), capture_output=True, timeout=60)


def check_run(josie, batches, lanes, merger):
    script = script_of(batches)
    words = ["--lanes", str(lanes), "--trace"] + ["--merge"] * merger
    ended = run(josie, words, script)
    text = ended.stdout.decode()
    try:
        if ended.returncode != 0:
            raise Wrong(f"status {ended.returncode}: {ended.stderr.decode()}")
        lines, journal = parted(text)
        if journal is None:
            raise Wrong("no journal")
        commands = [command for batch in numbered(batches, merger) for command in batch]
        if list(lines) != [command.number for command in commands]:
            raise Wrong(f"replies to {list(lines)}")
        replies = [placed(command, lines[command.number]) for command in commands]
        ends = checked(replies, journal, len(batches))
        order = order_of(replies, ends)
        if len(batches) == 1:
            order += "/"
        again = run(josie, [*words, "--order", order], script)
        if again.stdout != ended.stdout:
            raise Wrong(f"in the order {order} it wrote\n{again.stdout.decode()}{again.stderr.decode()}")
    except Wrong as wrong:
        raise Wrong(f"run {' '.join(words)}\n{script}wrote\n{text}{wrong}") from None


def check(josie, _words):
    scripts = ALL_SCRIPTS if "--all" in sys.argv else SCRIPTS
    for seed in range(scripts):
        chance = random.Random(seed)
        lanes, merger = chance.randint(2, 16), chance.random() < 0.4
        check_run(josie, random_batches(chance, lanes), lanes, merger)
    return f"{scripts} runs on threads, each right and played again in the order of its trace"


if __name__ == "__main__":
    main("random lanes", check)
