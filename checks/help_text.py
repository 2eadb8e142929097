#!/usr/bin/env python3
"""The arguments and commands of `docs/FORMATS.md` are in `--help` and in the manual page too, and the usage line is the program's.

    checks/help_text.py [JOSIE]

`docs/FORMATS.md` describes the arguments and the commands in full. Each entry in the first column of its tables of arguments and of lines must be in the other
two texts, and the line on standard error that it quotes for an invalid command line must be the one that the program writes.
"""
import os
import re
import subprocess

from check import HERE, Wrong, main

DOCS = os.path.join(HERE, "..", "docs")


def text_of(name):
    with open(os.path.join(DOCS, name), encoding="utf-8") as file:
        return file.read()


def first_column(text, header):
    """The code in the first column of the table with this header."""
    table = text.split(header, 1)[1].split("\n\n", 1)[0]
    return re.findall(r"^\| `([^`]+)` \|", table, re.MULTILINE)


def manual_text():
    """The manual page without its markup, as one line."""
    lines = []
    for line in text_of("josie.1").splitlines():
        if line.startswith("."):
            line = line.partition(" ")[2].replace('" ', " ").replace(' "', " ").replace('"', "")
        lines.append(line.replace("\\-", "-"))
    return " ".join(" ".join(lines).split())


def run(josie, *words):
    ended = subprocess.run([josie, *words], stdin=subprocess.DEVNULL, capture_output=True, timeout=20)
    return ended.stdout.decode(), ended.stderr.decode()


def check(josie, _words):
    formats = text_of("FORMATS.md")
    told = first_column(formats, "| Arguments | Meaning | Example |") + first_column(formats, "| Line | Meaning | Example |")
    texts = {"--help": " ".join(run(josie, "--help")[0].split()), "docs/josie.1": manual_text()}
    missing = [f"{name} lacks `{words}`" for name, text in texts.items() for words in told if words not in text]
    usage = run(josie)[1].strip()
    if f"`{usage}`" not in formats:
        missing.append(f"docs/FORMATS.md lacks `{usage}`")
    if missing:
        raise Wrong("; ".join(missing))
    return f"{len(told)} arguments and commands of docs/FORMATS.md are in --help and the manual page"


if __name__ == "__main__":
    main("help text", check)
