#!/usr/bin/env python3
"""The limits of a script at their real sizes, against the built program.

    checks/limits.py [JOSIE]

Each limit is tried at its exact size, which is accepted, and one beyond it, which is refused at its line: a line of 4,096 bytes, a comment line and a line of
spaces of the same length, a block, a file and a trace of 67,108,864 bytes, 4,096 commands in a batch, and 536,870,912 bytes of blocks and files in a batch.
(The limit of a script, 68,719,476,736 bytes, is tried at a smaller size by the tests of `script_text`.) It needs two gigabytes of memory and a minute, so
`.ci/run` does not run it. Its last line is `N passed, M failed`.
"""
import os
import subprocess
import tempfile

from check import Wrong, main

LINE, BLOCK, COMMANDS, BYTES = 4_096, 67_108_864, 4_096, 536_870_912


def body(size):
    """A query of this many bytes, including its last line feed, that is refused at once: its first line is not UTF-8."""
    return b"\xff\n" + b"x" * (size - 3) + b"\n"


def block(size):
    return b"search 1\n" + body(size) + b".\n"


def run(josie, pieces, folder, words=("run",)):
    """The status of a run over these pieces, the text that it wrote, and its line on standard error."""
    ended = subprocess.Popen([josie, *words], stdin=subprocess.PIPE, stdout=subprocess.PIPE, stderr=subprocess.PIPE, cwd=folder)
    try:
        for piece in pieces:
            ended.stdin.write(piece)
        ended.stdin.close()
    except BrokenPipeError:
        pass
    ended.stdin = None
    out, err = ended.communicate()
    return ended.returncode, out, err.decode().strip()


def trials(folder):
    """What is tried: a name, the pieces of a script, and what it ends with."""
    fine = "fine"
    path = "p" * (LINE - len("loadfile t "))
    yield "a line of 4,096 bytes", [f"loadfile t {path}\n".encode()], fine
    yield "a line of 4,097 bytes", [f"tables\nloadfile t {path}p\n".encode()], "josie: line 2: line too long"
    yield "a line of 4,096 bytes and a carriage return", [f"loadfile t {path}\r\n".encode()], fine
    yield "a comment of 4,096 bytes", [b"#" * LINE + b"\ntables\n"], fine
    yield "a comment of 4,097 bytes", [b"#" * (LINE + 1) + b"\ntables\n"], "josie: line 1: line too long"
    yield "a line of 4,096 spaces", [b" " * LINE + b"\ntables\n"], fine
    yield "a line of 4,097 spaces", [b" " * (LINE + 1) + b"\ntables\n"], "josie: line 1: line too long"
    yield "a line without an end of 5,000,000 bytes", [b"x" * 5_000_000], "josie: line 1: line too long"
    yield "4,096 commands", [b"tables\n" * COMMANDS], fine
    yield "4,097 commands", [b"tables\n" * (COMMANDS + 1)], f"josie: line {COMMANDS + 1}: too many commands in a batch"
    yield "4,096 commands twice", [b"tables\n" * COMMANDS, b"sync\n", b"tables\n" * COMMANDS], fine
    yield "a block of 67,108,864 bytes", [block(BLOCK)], fine
    yield "a block of one byte more", [block(BLOCK + 1)], "josie: line 3: block too long"
    yield "a batch of 536,870,912 bytes", [block(BLOCK)] * 8, fine
    yield "a batch of one byte more", [block(BLOCK)] * 8 + [b"search 1\n\n.\n"], "josie: line 34: too many bytes in a batch"
    for name, size in (("most.csv", BLOCK), ("more.csv", BLOCK + 1)):
        with open(os.path.join(folder, name), "wb") as file:
            file.write(b"c\n\xff\n" + b"x" * (size - 5) + b"\n")
    yield "a file of 67,108,864 bytes", [b"loadfile t most.csv\n"], b"1 refused csv record 2 field 1 not UTF-8\n"
    yield "a file of one byte more", [b"loadfile t more.csv\n"], b"1 refused file longer\n"
    yield "files of 536,870,912 bytes", [b"loadfile t most.csv\n"] * 8, fine
    yield "files of more bytes", [b"loadfile t most.csv\n"] * 9, "josie: line 9: too many bytes in a batch"


def trace_trials(folder):
    """Traces of the greatest size and of one byte more: a name, the words of a check, and what it ends with."""
    for name, size, wanted in (("most", BLOCK, (7, b"no\n", "josie: refuted")), ("more", BLOCK + 1, (6, b"", "josie: given file 1: longer"))):
        with open(os.path.join(folder, f"{name}.trace"), "wb") as file:
            file.write(b"1 tables 0 at 0\n" + b"x" * (size - 16))
        yield f"a trace of {size} bytes", ["check", f"{name}.trace"], wanted


def check(josie, _words):
    wrong = []
    count = 0
    with tempfile.TemporaryDirectory() as folder:
        for name, pieces, wanted in trials(folder):
            count += 1
            status, out, err = run(josie, pieces, folder)
            if wanted == "fine":
                well = status == 0 and err == ""
            elif isinstance(wanted, bytes):
                well = status == 0 and out == wanted
            else:
                well = status == 1 and err == wanted
            if not well:
                wrong.append(f"{name}: wanted {wanted!r}, got status {status}, {err!r}, {out[:80]!r}")
        for name, words, wanted in trace_trials(folder):
            count += 1
            got = run(josie, [b"tables\n"], folder, words)
            if got != wanted:
                wrong.append(f"{name}: wanted {wanted!r}, got {got!r}")
    if wrong:
        raise Wrong("\n".join(wrong))
    return f"{count} trials, as the limits say"


if __name__ == "__main__":
    main("limits", check)
