#!/usr/bin/env python3
"""Traces that josie checks, both as it wrote them and changed, against a plain model.

    checks/forged_traces.py [JOSIE] [--count=N] [--seed=S]

Random scripts of loads, drops, replaces, lists, searches, likes, contains, asofs and merges on one to five lanes, with a merger and without, with either
profile, are run with a trace, once on threads and once in a random stated order. josie must say `yes` to each trace. Then one thing in it is changed:

- a byte: it is replaced by another (often a digit by a digit), removed, or doubled;
- a line: it is removed, doubled, moved, or swapped with the next one, or its line feed is changed;
- a reply: it becomes the one that its command would have at other positions, or `no memory`;
- the history: an entry is moved within it, and every reply is made again at the positions that it shows.

josie must say `yes` exactly if the model of `plain_trace.py` finds the changed trace right; the model decides each case. There are N changes (10,000 by
default), twenty-five for each trace. Last, josie must say `yes` to runs of a larger script on four lanes with a merger. The seeds are fixed, but not the order
in which threads run. It prints one line, and exits with 0 if everything is as the model says.
"""
import argparse
import multiprocessing
import os
import random
import subprocess
import tempfile
import unicodedata
from typing import NamedTuple

from check import Wrong, main
import plain_lake
from plain_trace import NO_MEMORY, is_right, joined, made_again, numbered, parted, placed, replayed
from random_orders import VALUES, random_batches, script_of

COUNT, CHANGES = 10_000, 25
FOUR_LANES = 20
TITLES = ["c", "c", "two words", '"a ""quoted"" one"', r"back\slash"]
WIDE = 0xFEE0  # from an ASCII sign to its full-width form, which `str.casefold` leaves full-width, as profile 1 does
SAID = {True: (0, b"yes\n", b""), False: (7, b"no\n", b"josie: refuted\n")}


class Script(NamedTuple):
    batches: list  # of commands, each a lane, its words and its block
    words: list  # the options of its run, other than an order or a trace

    def encoded(self):
        return script_of(self.batches).encode("utf-8", "surrogateescape")

    def shown(self, mode):
        """The words of a command line and the script, for a human reader."""
        return f"josie {mode} {' '.join(self.words)}\n{self.encoded().decode(errors='backslashreplace')}"

    def numbered(self):
        """The commands as the model takes them: by profile 2 their values are in their compatibility forms."""
        batches = self.batches
        if self.words[-2:] == ["--profile", "2"]:
            batches = [[(lane, words, block and [unicodedata.normalize("NFKC", line) for line in block]) for lane, words, block in batch] for batch in batches]
        return numbered(batches, "--merge" in self.words)


# ---- scripts


def varied_value(chance, value):
    """A value, possibly written in another way, or only a blank."""
    pick = chance.random()
    if pick < 0.2:
        return chr(ord(value) + WIDE)
    if pick < 0.3:
        return value.upper()
    return " " if pick < 0.33 else value


def varied_block(chance, words, block):
    """A block with other titles, a second column, values in other forms, or a fault."""
    if block is None:
        return None
    if not words.startswith(("load", "replace")):
        lines = [varied_value(chance, value) for value in block]
        return lines + [plain_lake.NOT_UTF8] if chance.random() < 0.04 else lines
    if chance.random() < 0.06:
        return chance.choice([[], [*block, "x,y"], [*block, plain_lake.NOT_UTF8]])
    columns = chance.choice([1, 1, 2])
    rows = [[varied_value(chance, value), *chance.choices(VALUES, k=columns - 1)] for value in block[1:]]
    return [",".join(chance.choices(TITLES, k=columns)), *map(",".join, rows)]


def random_script(chance):
    lanes = chance.randint(1, 5)
    batches = [[(lane, words, varied_block(chance, words, block)) for lane, words, block in batch] for batch in random_batches(chance, lanes)]
    words = ["--lanes", str(lanes)] + ["--merge"] * (chance.random() < 0.4) + ["--profile", chance.choice("12")]
    return Script(batches, words)


def random_order(chance, script):
    """The words that state an order of a script's lanes, each batch in an order of its own."""
    lanes = range(0 if "--merge" in script.words else 1, int(script.words[1]) + 1)
    return ["--order", "/".join(",".join(map(str, chance.choices(lanes, k=chance.randint(0, 24)))) for _ in range(3))]


# ---- changes of a trace


def another_byte(chance, trace):
    """One byte is replaced by another, removed, or doubled."""
    at = chance.randrange(len(trace))
    return trace[:at] + chance.choice([bytes([chance.randrange(256)]), b"", trace[at:at + 1] * 2]) + trace[at + 1:]


def another_digit(chance, trace):
    """One digit is replaced by another."""
    at = chance.choice([at for at, byte in enumerate(trace) if chr(byte).isdigit()])
    return trace[:at] + b"%d" % chance.randint(0, 9) + trace[at + 1:]


def removed_line(chance, lines):
    lines.pop(chance.randrange(len(lines)))


def doubled_line(chance, lines):
    at = chance.randrange(len(lines))
    lines.insert(chance.randint(0, len(lines)), lines[at])


def moved_line(chance, lines):
    lines.insert(chance.randrange(len(lines)), lines.pop(chance.randrange(len(lines))))


def swapped_lines(chance, lines):
    at = chance.randint(0, max(0, len(lines) - 2))
    lines[at:at + 2] = lines[at:at + 2][::-1]


def another_end(chance, lines):
    """A line feed is replaced by another byte, removed, or preceded by another byte."""
    at = chance.randrange(len(lines))
    lines[at] = lines[at][:-1] + chance.choice([b"", b" ", b"\r", b"\0", b"\n\n", b" \n", b"\r\n", bytes([chance.randrange(256)])])


def another_line(chance, trace):
    lines = trace.splitlines(keepends=True)
    chance.choice([removed_line, doubled_line, moved_line, swapped_lines, another_end])(chance, lines)
    return b"".join(lines)


class Written(NamedTuple):
    """A right trace, and what was read of it."""
    trace: bytes
    replies: list
    journal: list  # its lines
    versions: list  # of the lake, by position


def read_again(trace, batches):
    lines, journal = parted(trace.decode())
    replies = [placed(command, lines[command.number]) for batch in batches for command in batch]
    return Written(trace, replies, journal, replayed(replies, journal))


def written_again(replies, journal):
    """The trace of some replies, each a command and its lines, and of the lines of a journal."""
    return joined({command.number: lines for command, lines in replies}, journal).encode()


def another_reply(chance, written):
    """A command gets the reply that it would have at other positions, most often next to its own, or `no memory`."""
    told = chance.choice(written.replies)
    last = len(written.versions) - 1
    at = min(max((told.at or 0) + chance.choice([-1, 1]), 0), last) if chance.random() < 0.6 else chance.randint(0, last)
    pinned = chance.choice([at, chance.randint(0, at)])
    lines = NO_MEMORY if chance.random() < 0.2 else made_again(told.command, written.versions[pinned], written.versions[at])[0]
    return written_again([(reply.command, lines if reply is told else reply.lines) for reply in written.replies], written.journal)


def another_history(chance, written):
    """An entry is moved within the journal, and each reply is made again at the positions that it shows. Its lane may or may not be able to reach these."""
    owners = sorted((reply for reply in written.replies if reply.is_entry), key=lambda reply: reply.at)
    if not owners:
        return written.trace
    owners.insert(chance.randrange(len(owners)), owners.pop(chance.randrange(len(owners))))
    versions, journal, lines = [plain_lake.EMPTY], [], {}
    for at, (command, _, pinned, _, _) in enumerate(owners, 1):
        lines[command.number], version, change = made_again(command, versions[min(pinned or 0, at - 1)], versions[-1])
        if not change:
            return written.trace
        versions.append(version)
        journal.append(plain_lake.journal_line(at, change, command.lane, command.number.removeprefix("m")))
    for command, _, pinned, at, is_entry in written.replies:
        if not is_entry and at is not None:
            lines[command.number] = made_again(command, versions[pinned or 0], versions[at])[0]
    return written_again([(reply.command, lines.get(reply.command.number, reply.lines)) for reply in written.replies], journal)


def changed(chance, written):
    """The trace with one thing changed."""
    other = written.trace
    while other == written.trace:
        pick = chance.random()
        if pick < 0.3 or not written.replies:
            other = chance.choice([another_byte, another_digit])(chance, written.trace)
        elif pick < 0.55:
            other = another_line(chance, written.trace)
        else:
            other = chance.choice([another_reply, another_history])(chance, written)
    return other


# ---- the program


def run(josie, script, order):
    """The trace of a run."""
    ended = subprocess.run([josie, "run", *script.words, *order, "--trace"], input=script.encoded(), capture_output=True, timeout=60)
    if ended.returncode != 0:
        raise Wrong(f"{script.shown('run')}status {ended.returncode}: {ended.stderr.decode()}")
    return ended.stdout


def check_said(josie, folder, script, trace, change):
    """Checks that josie says about a trace what the model says, and returns that. `change` tells a human reader what the trace was made from."""
    path = os.path.join(folder, "trace")
    with open(path, "wb") as file:
        file.write(trace)
    ended = subprocess.run([josie, "check", path, *script.words], input=script.encoded(), capture_output=True, timeout=60)
    right = is_right(trace, script.numbered())
    got = (ended.returncode, ended.stdout, ended.stderr)
    if got != SAID[right]:
        raise Wrong(f"{script.shown('check TRACE')}{change}the trace\n{trace.decode(errors='backslashreplace')}wanted {SAID[right]}, got {got}")
    return right


def check_written(josie, folder, script, order):
    """A trace that josie wrote, that is right, and to which josie said `yes`."""
    trace = run(josie, script, order)
    if not check_said(josie, folder, script, trace, ""):
        raise Wrong(f"{script.shown('run')}{' '.join(order)}\nwrote a trace that is not right\n{trace.decode(errors='backslashreplace')}")
    return trace


def check_script(job):
    """Checks the two traces of one script, and some changes of each. Returns how many changes there were, and how many of the changed traces are right."""
    josie, seed, changes = job
    chance = random.Random(seed)
    script = random_script(chance)
    right = 0
    with tempfile.TemporaryDirectory() as folder:
        for order in ([], random_order(chance, script)):
            written = read_again(check_written(josie, folder, script, order), script.numbered())
            for _ in range(changes):
                right += check_said(josie, folder, script, changed(chance, written), f"from the trace\n{written.trace.decode()}")
    return 2 * changes, right


# ---- four lanes


def four_lanes(chance):
    """Twenty loads, five drops, two replaces and ten searches on four lanes with a merger, in one batch, or in two of which the first has the loads."""
    names = [f"t{number}" for number in range(20)]

    def table():
        return ["c", *chance.sample(VALUES, 3)]

    loads = [(number % 4 + 1, f"load {name}", table()) for number, name in enumerate(names)]
    put = chance.sample(names, 7)
    later = [(f"drop {name}", None) for name in put[:5]] + [(f"replace {name}", table()) for name in put[5:]]
    later += [(f"search {chance.choice([1, 5, 30])}", chance.sample(VALUES, 3)) for _ in range(10)]
    chance.shuffle(later)
    batches = [loads, [(chance.randint(1, 4), *command) for command in later]]
    return Script(chance.choice([batches, [loads + batches[1]]]), ["--lanes", "4", "--merge"])


def check_four_lanes(job):
    josie, seed = job
    script = four_lanes(random.Random(seed))
    with tempfile.TemporaryDirectory() as folder:
        check_written(josie, folder, script, [])


# ---- all


def given_numbers():
    words = argparse.ArgumentParser()
    words.add_argument("--count", type=int, default=COUNT)
    words.add_argument("--seed", type=int, default=1)
    return words.parse_known_args()[0]


def check(josie, _words):
    given = given_numbers()
    scripts = -(-given.count // (2 * CHANGES))
    with multiprocessing.Pool(os.cpu_count()) as pool:
        found = list(pool.imap(check_script, [(josie, given.seed * 1_000_000 + number, CHANGES) for number in range(scripts)]))
        pool.map(check_four_lanes, [(josie, number) for number in range(FOUR_LANES)])
    changes, right = map(sum, zip(*found))
    return f"{2 * scripts + FOUR_LANES} traces, {changes} changes, {right} of them right: all as the model says"


if __name__ == "__main__":
    main("forged traces", check)
