#!/usr/bin/env python3
"""The script grammar against a plain model, on random lines and lines of a table.

    checks/random_scripts.py [JOSIE] [--all]

There are two kinds of scripts, none of which loads a table, so that every reply follows from the line alone. The first kind is each command line with one of
its bytes replaced, at every position, by each of the 256 byte values (with `--all`; otherwise by every fifth of them). The second kind is random scripts of
commands, blocks, comments, `sync` lines, lane words and invalid lines, with and without carriage returns, and with and without an end. Each script is written
whole, and then in random pieces. The exit code, the line on standard error and the replies must be the model's. The model cuts the whole script into lines and
reads one after another. The seed is fixed. It prints one line, and exits with 0 if everything is as the model says.
"""
import random
import subprocess
import sys
import time

from check import Wrong, main

WORDS, LANE, UNKNOWN, NO_END, LONG = "bad words", "no such lane", "no such command", "block without end", "line too long"
TEMPLATES = [
    b"load t", b"loadfile t x.csv", b"drop t", b"replace t", b"tables", b"search 5", b"like 5 t 1", b"contain 1 2", b"asof 0 5", b"merge", b"merge all", b"sync", b"@1 tables", b"# note", b"  tables  ",
]
NAME_BYTES = set(range(0x21, 0x7F))


class Fault(Exception):
    """An invalid line: its number and its reason."""


def number(word, most):
    if not word or not all(48 <= byte <= 57 for byte in word) or word[0] == 48 or int(word) > most:
        raise ValueError
    return int(word)


def number_or_zero(word, most):
    return 0 if word == b"0" else number(word, most)


def name(word):
    if not 1 <= len(word) <= 255 or not set(word) <= NAME_BYTES:
        raise ValueError
    return word.decode()


def split_words(text):
    return [word for word in text.split(b" ") if word]


def says(text):
    """What a line outside a block says: a kind and its values. A ValueError means `bad words`."""
    words = split_words(text)
    if words[0].startswith(b"@"):
        lane = number(words[0][1:], 10 ** 5000)
        text = text.lstrip(b" ")[len(words[0]):].lstrip(b" ")
        words = split_words(text)
        if words[:1] == [b"sync"]:
            raise ValueError
        if lane > 1:
            raise Fault(LANE)
    if not words or words[0] not in (b"load", b"loadfile", b"drop", b"replace", b"tables", b"search", b"like", b"contain", b"asof", b"merge", b"sync"):
        raise Fault(UNKNOWN)
    kind, more = words[0], words[1:]
    if kind == b"loadfile":
        if len(more) < 2:
            raise ValueError
        rest = text.lstrip(b" ")[len(kind):].lstrip(b" ")
        path = rest[len(more[0]):].lstrip(b" ").rstrip(b" ")
        path.decode()  # a UnicodeDecodeError is a ValueError
        return kind, (name(more[0]), path)
    if kind == b"merge":
        if more not in ([], [b"all"]):
            raise ValueError
        return kind, ()
    wanted = {b"load": 1, b"drop": 1, b"replace": 1, b"tables": 0, b"search": 1, b"like": 3, b"contain": 2, b"asof": 2, b"sync": 0}[kind]
    if len(more) != wanted:
        raise ValueError
    if kind in (b"load", b"drop", b"replace"):
        return kind, (name(more[0]),)
    if kind == b"search":
        return kind, (number(more[0], 10000),)
    if kind == b"contain":
        part, whole = number(more[0], 10000), number(more[1], 10000)
        if part > whole:
            raise ValueError
        return kind, (part, whole)
    if kind == b"asof":
        return kind, (number_or_zero(more[0], 4294967295), number(more[1], 10000))
    if kind == b"like":
        return kind, (number(more[0], 10000), name(more[1]), number(more[2], 4294967295))
    return kind, ()


def reply(kind, values, body):
    """The reply to a command over a lake without tables."""
    if kind in (b"load", b"replace"):
        return "refused csv no-header"
    if kind == b"loadfile":
        return "refused file failed" if b"\0" in values[1] else "refused file missing"
    if kind == b"drop":
        return f"refused unknown {values[0]} at 0"
    if kind == b"like":
        return f"refused unknown {values[1]} at 0"
    if kind == b"tables":
        return "tables 0 at 0"
    if kind == b"merge":
        return "refused nothing to merge at 0"
    if kind == b"asof" and values[0] > 0:
        return f"refused later {values[0]} at 0"
    return f"answer 0 of {len({line.strip() for line in body} - {b''})} {'as of 0 ' if kind == b'asof' else ''}at 0"


def without_return(line):
    return line[:-1] if line.endswith(b"\r") else line


def model(script):
    """The exit code, the line on standard error, and the replies to the batches before the invalid line."""
    lines = script.split(b"\n")
    last = lines.pop()
    if last:
        lines.append(last)
    done, batch, commands = [], [], 0
    at = 0
    try:
        while at < len(lines):
            text = without_return(lines[at])
            at += 1
            if len(text) > 4096:
                raise Fault(LONG)
            if not text.strip(b" ") or text.startswith(b"#"):
                continue
            kind, values = says(text)
            if kind == b"sync":
                done, batch = done + batch, []
                continue
            body = []
            if kind in (b"load", b"replace", b"search", b"contain", b"asof"):
                opened = at
                while True:
                    if at == len(lines):
                        at = opened
                        raise Fault(NO_END)
                    if without_return(lines[at]) == b".":
                        at += 1
                        break
                    if at == len(lines) - 1 and last:
                        at = opened
                        raise Fault(NO_END)
                    body.append(lines[at][1:] if lines[at].startswith(b".") else lines[at])
                    at += 1
            commands += 1
            batch.append(f"{commands} {reply(kind, values, body)}")
    except Fault as fault:
        return 1, f"josie: line {at}: {fault.args[0]}", done
    except ValueError:
        return 1, f"josie: line {at}: {WORDS}", done
    return 0, "", done + batch


def run(josie, script, pieces):
    """What josie writes for the script, given in these pieces."""
    ended = subprocess.Popen([josie, "run"], stdin=subprocess.PIPE, stdout=subprocess.PIPE, stderr=subprocess.PIPE, bufsize=0)
    try:
        for piece in pieces:
            ended.stdin.write(piece)
            if len(pieces) > 1:
                time.sleep(0.0003)
        ended.stdin.close()
    except BrokenPipeError:
        pass
    ended.stdin = None
    out, err = ended.communicate()
    return ended.returncode, err.decode(errors="replace").rstrip("\n"), out.decode(errors="replace").splitlines()


def block(chance):
    lines = [chance.choice([b"amber", b" Cedar ", b"..", b"...", b"", b"\t", b"a.b", b". ", b"x\r"]) for _ in range(chance.randint(0, 4))]
    return lines + [chance.choice([b".", b".", b".\r"])]


def random_line(chance):
    """One line, or a command with its block."""
    pick = chance.random()
    if pick < 0.25:
        fronts = [
            b"search %d" % chance.randint(1, 10000), b"contain %d %d" % (chance.randint(1, 50), chance.randint(50, 10000)),
            b"asof %d %d" % (chance.choice([0, 0, 1, 4294967295]), chance.randint(1, 10000)),
        ]
        return [chance.choice(fronts)] + block(chance)
    if pick < 0.3:
        return [chance.choice([b"load t", b"replace t"]), chance.choice([b".", b".\r"])]
    if pick < 0.9:
        line = chance.choice([b"tables", b"drop a", b"like 3 a 2", b"loadfile a no such", b"merge", b"merge  all ", b"sync", b"", b"  ", b"# x", b" drop  a ", b"@1 tables"])
        return [line + chance.choice([b"", b"", b"\r"])]
    return [chance.choice([
        b"@0 tables", b"@01 tables", b"@2 tables", b"@", b"@ tables", b"@1 sync", b"@1", b"@99999999999999999999 tables", b"find 3", b"Tables", b"tables x",
        b"search 0", b"search 01", b"search 10001", b"contain 2 1", b"contain 0 1", b"contain 1", b"contain 1 10001", b"contain 1 2 3", b"asof 01 5", b"asof 00 5", b"asof 1", b"asof 0 0", b"asof 0 05", b"asof 0 10001", b"asof 4294967296 5", b"asof 1 2 3", b"like 1 a 0", b"like 1 a 4294967296", b"drop", b"drop \xc3\xa9", b"replace", b"replace a b", b"replaced a", b"load " + b"n" * 256,
        b"loadfile a", b"loadfile a \xff", b"merge al", b"merge all all", b"merges", b" # x", b"\rtables", b"tables\r\r", b"." , b"x" * 4097, b"#" * 4097, b" " * 4097,
    ])]


def random_script(chance):
    lines = [line for _ in range(chance.randint(1, 12)) for line in random_line(chance)]
    script = b"\n".join(lines) + chance.choice([b"\n", b"\n", b"", b"\r", b"\n\r"])
    if chance.random() < 0.1:
        script = script[: chance.randint(0, len(script))]
    return script


def cut(chance, script):
    pieces = []
    while script:
        size = chance.choice([1, 2, 3, 7, 20, 100])
        pieces.append(script[:size])
        script = script[size:]
    return pieces or [b""]


def check(josie, _words):
    step = 1 if "--all" in sys.argv else 5
    chance = random.Random(1)
    scripts = []
    for template in TEMPLATES:
        for at in range(len(template)):
            for byte in range(at % step, 256, step):
                scripts.append((template[:at] + bytes([byte]) + template[at + 1:] + b"\n.\ntables\n", False))
    scripts += [(random_script(chance), True) for _ in range(400)]
    for script, in_pieces in scripts:
        wanted = model(script)
        for pieces in [[script]] + ([cut(chance, script)] if in_pieces else []):
            got = run(josie, script, pieces)
            if got != wanted:
                raise Wrong(f"{script!r} in {len(pieces)} pieces: wanted {wanted}, got {got}")
    return f"{len(scripts)} scripts, as the model says"


if __name__ == "__main__":
    main("random scripts", check)
