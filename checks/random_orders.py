#!/usr/bin/env python3
"""Runs of josie on several lanes in stated orders, on random scripts, against a plain model of the play.

    checks/random_orders.py [JOSIE]

The first part runs random scripts of loads, drops, replaces, lists, searches and merges on one to five lanes, with a merger and without, each in a random order
(pieces with too few and too many steps, and lanes that have none left) and lane by lane. The second part runs one script of three lanes (a search and a list, a
load and a drop, and a merge of the whole layout) in every order of its seven steps. What josie writes, mostly with a trace, must be the model's output, byte
for byte. The model is a list of versions (`plain_lake.py`): a load, a drop, a replace, a list and an asof take one step; a search, a contain and a merge take
two, the first of which takes the version that they are answered at. The seeds are fixed. It prints one line, and exits with 0 if everything is as the model
says.
"""
import itertools
import random
import subprocess

from check import Wrong, main
import plain_lake

SCRIPTS = 1500
NAMES = ["a", "b", "c", "d", "e", "f"]
VALUES = ["x", "y", "z", "u", "v"]


def random_command(chance):
    """The words of a command and its block, if it has one."""
    pick = chance.random()
    if pick < 0.4:
        return f"load {chance.choice(NAMES)}", ["c"] + chance.sample(VALUES, chance.randint(1, 3))
    if pick < 0.48:
        return f"drop {chance.choice(NAMES)}", None
    if pick < 0.54:
        return f"replace {chance.choice(NAMES)}", ["c"] + chance.sample(VALUES, chance.randint(1, 3))
    if pick < 0.6:
        return "tables", None
    if pick < 0.71:
        return f"search {chance.choice([1, 2, 9])}", chance.sample(VALUES, chance.randint(1, 4))
    if pick < 0.75:
        return f"contain {chance.randint(1, 2)} {chance.randint(2, 4)}", chance.sample(VALUES, chance.randint(1, 4))
    if pick < 0.79:
        return f"asof {chance.randint(0, 6)} {chance.choice([1, 2, 9])}", chance.sample(VALUES, chance.randint(1, 4))
    if pick < 0.85:
        return f"like {chance.choice([1, 9])} {chance.choice(NAMES)} {chance.randint(1, 2)}", None
    return chance.choice(["merge", "merge", "merge all"]), None


def random_batches(chance, lanes):
    """Batches of commands, each a lane, its words and its block."""
    return [[(chance.randint(1, lanes), *random_command(chance)) for _ in range(chance.randint(0, 12))] for _ in range(chance.randint(1, 3))]


def script_of(batches):
    lines = []
    for batch in batches:
        for lane, words, block in batch:
            lines.append(words if lane == 1 else f"@{lane} {words}")
            lines += block + ["."] if block is not None else []
        lines.append("sync")
    return "".join(line + "\n" for line in lines)


def step(lane, play):
    """The next step of a lane in a play, if it has one."""
    todo, pins, done = play["todo"][lane], play["pins"], play["done"]
    if not todo:
        return
    number, words, block = todo[0]
    kind, *more = words.split(" ")
    at = play["lake"]
    if kind in ("search", "like", "contain", "merge") and lane not in pins:
        pins[lane] = at
        return
    todo.pop(0)
    pinned = pins.pop(lane, at)
    change = None
    if kind == "load":
        reply, at, change = plain_lake.load(at, more[0], plain_lake.records(block))
    elif kind == "drop":
        reply, at, change = plain_lake.drop(at, more[0])
    elif kind == "replace":
        reply, at, change = plain_lake.replace(at, more[0], plain_lake.records(block))
    elif kind == "merge":
        reply, at, change = plain_lake.merge(pinned, at, more == ["all"])
    elif kind == "tables":
        reply = plain_lake.list_tables(at)
    elif kind == "search":
        reply = plain_lake.search(pinned, int(more[0]), block)
    elif kind == "contain":
        reply = plain_lake.contain(pinned, int(more[0]), int(more[1]), block)
    elif kind == "asof":
        reply = plain_lake.as_of(at, int(more[0]), int(more[1]), block)
    else:
        reply = plain_lake.like(pinned, int(more[0]), more[1], int(more[2]))
    play["lake"] = at
    done[lane, number] = reply
    if change:
        play["journal"].append(plain_lake.journal_line(at.position, change, lane, number))


def wanted(batches, lanes, pieces, merger, trace):
    """What josie must write."""
    play = {"lake": plain_lake.EMPTY, "journal": []}
    replies, number, merger_number = [], 0, 0
    for place, batch in enumerate(batches):
        numbered = [(number + i, lane, words, block) for i, (lane, words, block) in enumerate(batch, 1)]
        number += len(batch)
        updates = sum(words.split(" ")[0] in ("load", "drop", "replace") for _, words, _ in batch) if merger else 0
        merges = [(merger_number + i, "merge", None) for i in range(1, updates + 1)]
        merger_number += updates
        play["todo"] = {lane: [(n, words, block) for n, l, words, block in numbered if l == lane] for lane in range(1, lanes + 1)}
        play["todo"][0] = list(merges)
        play["pins"], play["done"] = {}, {}
        for lane in pieces[place] if place < len(pieces) else []:
            step(lane, play)
        for lane in [*range(1, lanes + 1), 0]:
            while play["todo"][lane]:
                step(lane, play)
        for n, lane, _, _ in numbered:
            reply = play["done"][lane, n]
            replies += [f"{n} {reply[0]}"] + reply[1:]
        for n, _, _ in merges:
            reply = play["done"][0, n]
            replies += [f"m{n} {reply[0]}"] + reply[1:] if trace else []
    return "".join(text + "\n" for text in plain_lake.written(replies, play["journal"], trace)).encode()


def difference(josie, batches, lanes, pieces, merger, trace):
    words = [josie, "run", "--lanes", str(lanes), "--order", "/".join(",".join(map(str, piece)) for piece in pieces)]
    words += ["--merge"] * merger + ["--trace"] * trace
    script = script_of(batches)
    ended = subprocess.run(words, input=script.encode(), capture_output=True, timeout=60)
    want = wanted(batches, lanes, pieces, merger, trace)
    if ended.returncode == 0 and ended.stdout == want:
        return None
    return f"{' '.join(words[1:])}\n{script}wanted\n{want.decode()}got (status {ended.returncode})\n{ended.stdout.decode()}{ended.stderr.decode()}"


def random_runs():
    """Random scripts in random orders, and lane by lane."""
    for seed in range(SCRIPTS):
        chance = random.Random(seed)
        lanes, merger = chance.randint(1, 5), chance.random() < 0.4
        batches = random_batches(chance, lanes)
        names = list(range(0 if merger else 1, lanes + 1))
        pieces = [[chance.choice(names) for _ in range(chance.randint(0, 24))] for _ in range(chance.randint(1, 4))]
        if pieces == [[]]:
            pieces = [[], []]
        trace = chance.random() < 0.8
        yield batches, lanes, pieces, merger, trace
        yield batches, lanes, [[], []], merger, trace


def every_order():
    """One script of three lanes in every order of its steps."""
    loads = [(1, f"load {name}", ["c", "x", name]) for name in "abc"]
    race = [(1, "search 9", ["x", "a"]), (1, "tables", None), (2, "load d", ["c", "x"]), (2, "drop a", None), (3, "merge all", None)]
    for order in sorted(set(itertools.permutations([1, 1, 1, 2, 2, 3, 3]))):
        yield [loads, race], 3, [[], list(order)], False, True


def check(josie, _words):
    runs = 0
    for run in itertools.chain(random_runs(), every_order()):
        runs += 1
        found = difference(josie, *run)
        if found:
            raise Wrong(found)
    return f"{runs} runs, as the model says"


if __name__ == "__main__":
    main("random orders", check)
