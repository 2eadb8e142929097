#!/usr/bin/env python3
"""Watched queries against a plain model of a lake, on random scripts.

    checks/random_watches.py [JOSIE]

The seeds are fixed, so the scripts are always the same. A script of `random_lakes.py` runs while one to sixteen queries are watched, with one to ten thousand
rows. The model counts the rows of each query again after each entry of the journal, and what josie writes is compared with it byte for byte, also if the last
line is invalid, and if a query's file does not exist or has a line that is not UTF-8.

It prints one line, and exits with 0 if josie writes what the model says, and otherwise with 1.
"""
import os
import subprocess
import tempfile

from check import Wrong, main
import plain_lake
from random_lakes import NOT_UTF8, Script

SCRIPTS = 12
COMMANDS = 300


class Watched(Script):
    """A script, the version of the lake after each entry, and the queries that are watched."""

    def __init__(self, seed):
        super().__init__(seed, False)
        self.versions = [self.lake]
        self.most = self.chance.choice([1, 2, 3, 10, 10000])
        self.queries = [[self.word() for _ in range(self.chance.randint(0, 12))] for _ in range(self.chance.choice([1, 2, 3, 16]))]
        while self.commands < COMMANDS:
            self.step()

    def word(self):
        """A value that is UTF-8."""
        value = self.value()
        return "x" if NOT_UTF8 in value else value

    def update(self, line, result, block=None):
        super().update(line, result, block)
        if result[2]:
            self.versions.append(self.lake)

    def rows(self, version, query):
        found = plain_lake.shared_rows(version, set(plain_lake.set_of(query)), None)[:self.most]
        return [f"  {-less} {name.decode()} {place} \"{plain_lake.quoted(title.decode())}\"" for less, name, title, place in found]

    def wanted_text(self):
        """What josie must write, without its last line."""
        lines = []
        for before, now in zip(self.versions, self.versions[1:]):
            for number, query in enumerate(self.queries, 1):
                rows = self.rows(now, query)
                if rows != self.rows(before, query):
                    lines += [f"{now.position} query {number} rows {len(rows)}"] + rows
        return lines

    def write_files(self, folder):
        for path, text in self.files.items():
            with open(os.path.join(folder, path), "w", encoding="utf-8", errors="surrogateescape", newline="") as file:
                file.write(text)
        for number, query in enumerate(self.queries, 1):
            with open(os.path.join(folder, f"q{number}"), "w", encoding="utf-8", newline="") as file:
                file.write("".join(value + "\n" for value in query))

    def run(self, josie, folder, paths, more_lines):
        data = "".join(line + "\n" for line in self.lines + more_lines).encode(errors="surrogateescape")
        words = [josie, "watch", str(self.most), *paths]
        return subprocess.run(words, input=data, capture_output=True, timeout=60, cwd=folder)


def expect(seed, what, ended, status, lines, error=""):
    wanted = "".join(line + "\n" for line in lines).encode()
    if ended.returncode != status:
        raise Wrong(f"script {seed}, {what}: status {ended.returncode}: {ended.stderr.decode(errors='replace').strip()}")
    if ended.stdout != wanted:
        pairs = enumerate(zip(wanted.split(b"\n"), ended.stdout.split(b"\n")), 1)
        number, (want, got) = next(((n, pair) for n, pair in pairs if pair[0] != pair[1]), (0, (len(wanted), len(ended.stdout))))
        raise Wrong(f"script {seed}, {what}, line {number}: want {want!r}, got {got!r}")
    if ended.stderr.decode().strip() != error:
        raise Wrong(f"script {seed}, {what}: standard error {ended.stderr!r}")


def check_script(seed, josie):
    script = Watched(seed)
    paths = [f"q{number}" for number in range(1, len(script.queries) + 1)]
    text = script.wanted_text()
    with tempfile.TemporaryDirectory() as folder:
        script.write_files(folder)
        expect(seed, "whole", script.run(josie, folder, paths, []), 0, text + [f"end {len(script.versions) - 1}"])
        fault = len("".join(line + "\n" for line in script.lines + ["sync"]).encode(errors="surrogateescape").split(b"\n"))
        expect(seed, "a line at fault", script.run(josie, folder, paths, ["sync", "find"]), 1, text, f"josie: line {fault}: no such command")
        last = len(paths)
        expect(seed, "a file that is missing", script.run(josie, folder, paths[:-1] + ["none"], []), 6, [], f"josie: given file {last}: missing")
        with open(os.path.join(folder, "foreign"), "wb") as file:
            file.write(b"a\nb\n\xff")
        expect(seed, "a file that is not UTF-8", script.run(josie, folder, paths[:-1] + ["foreign"], []), 6, [], f"josie: given file {last}: line 3 not UTF-8")
    return script


def check(josie, _words):
    scripts = [check_script(seed, josie) for seed in range(1, SCRIPTS + 1)]
    commands, queries = sum(script.commands for script in scripts), sum(len(script.queries) for script in scripts)
    return f"{SCRIPTS} scripts, {commands} commands and {queries} watched queries, as the model says"


if __name__ == "__main__":
    main("random watches", check)
