#!/usr/bin/env python3
"""Whole runs of josie against a plain model of a lake, on random scripts.

    checks/random_lakes.py [JOSIE]

The seeds are fixed, so the scripts are always the same. In batches, over a few names and values, they load from blocks and from files, drop, replace, list,
merge, ask which columns contain a fraction of some values, and search by values, by columns and at earlier positions. There are names that are taken or
unknown, files and places that do not exist, positions that are still to come, tables with two columns of the same name, fields without a value, values that
differ only in case and in the white space around them, quoted fields, lines with a carriage return or an extra dot, tables without a header or with a record of
a different length, fields and lines that are not UTF-8, lane words, and extra spaces between words. The model is `plain_lake.py`; what josie writes, with a
trace for every second script, is compared with it byte for byte. If a contain is asked next to a search for 10,000 columns, josie's rows of the contain are
also compared with those rows of the search that have enough of the values.

It prints one line, and exits with 0 if josie writes what the model says, and otherwise with 1.
"""
import os
import random
import re
import subprocess
import tempfile

from check import Wrong, main
import plain_lake
from plain_lake import NOT_UTF8
SCRIPTS = 6
COMMANDS = 450
MERGE_SCRIPTS = 2  # these have ten searches and ten contains before and after each merge
MERGE_COMMANDS = 2000
NAMES = ["a", "b", "B", "ab", "t-1", "t1", "t10", "t2", "~", "!x", "\"q\"", "\\"]
COLUMNS = ["c", "C", "c", "d", "", " c", "two words", "a,b", "\"", "\\", "x\ny", "tab\there"]
WORDS = ["amber", "cedar", "delta", "fjord", "heron", "iris", "maple", "onyx", "ss", "1", "01", "a b", "a  b", "#", "."]
BLANKS = ["", "", "", " ", "  ", "\t", " \t "]
MOST_TABLES = 9


class Script:
    """A script as it grows, its files, and what the model answers to it."""

    def __init__(self, seed, asked_merges):
        self.chance = random.Random(seed)
        self.asked_merges = asked_merges
        self.lake = plain_lake.EMPTY
        self.lines = []
        self.replies = []
        self.journal = []
        self.files = {}
        self.commands = 0
        self.besides = []  # the number of a search for all columns, and the fraction that the next command asks of them

    def command(self, line, replies, block=None):
        self.commands += 1
        self.lines.append(self.spaced(line))
        if block is not None:
            self.lines += ["." + text if text.startswith(".") else text for text in block] + ["."]
        self.replies += [f"{self.commands} {replies[0]}"] + replies[1:]

    def update(self, line, result, block=None):
        """A command that may change the lake."""
        replies, self.lake, change = result
        self.command(line, replies, block)
        if change:
            self.journal.append(plain_lake.journal_line(self.lake.position, change, 1, self.commands))

    def spaced(self, line):
        """The words of a command line, sometimes with extra spaces, with a lane word, or with a carriage return."""
        chance = self.chance
        if chance.random() < 0.1:
            line = "@1 " + line
        if chance.random() < 0.1:
            line = "  ".join(line.split(" "))
        return line + chance.choice(["", "", "", "  ", "\r", " \r"])

    def wanted(self, trace):
        """What josie must write, with a trace or without."""
        return plain_lake.written(self.replies, self.journal, trace)

    def value(self):
        """A value in some case, with some blanks around it, or only blanks, and rarely bytes that are not UTF-8."""
        chance = self.chance
        if chance.random() < 0.005:
            return "x" + NOT_UTF8
        if chance.random() < 0.1:
            return chance.choice(BLANKS)
        word = chance.choice(WORDS)
        word = chance.choice([word, word.upper(), word.title(), word.swapcase()])
        return chance.choice(BLANKS) + word + chance.choice(BLANKS)

    def field(self, text):
        """A field of CSV that reads as the text: in quotes if it must be, and sometimes if it need not be."""
        if any(sign in text for sign in ",\"\n\r") or text == "" or self.chance.random() < 0.2:
            return "\"" + text.replace("\"", "\"\"") + "\""
        return text

    def records(self):
        """A header and its rows, sometimes with one row that has one field too many or too few, or no record at all."""
        chance = self.chance
        if chance.random() < 0.03:
            return []
        header = [chance.choice(COLUMNS) for _ in range(chance.randint(1, 4))]
        rows = [[self.value() for _ in header] for _ in range(chance.randint(0, 8))]
        if rows and chance.random() < 0.06:
            row = chance.choice(rows)
            if len(row) > 1 and chance.random() < 0.5:
                row.pop()
            else:
                row.append("more")
        return [header] + rows

    def block_of(self, records):
        """The lines of the CSV text of some records. A line feed within a field gets no carriage return."""
        lines = [",".join(self.field(cell) for cell in record) for record in records]
        if self.chance.random() < 0.3:
            lines.insert(self.chance.randint(0, len(lines)), "")
        end = self.chance.choice(["\n", "\n", "\r\n"])
        text = "".join(line + end for line in lines)
        return text.split("\n")[:-1]

    def load(self):
        name = self.chance.choice(NAMES)
        records = self.records()
        self.update(f"load {name}", plain_lake.load(self.lake, name, records), self.block_of(records))

    def load_file(self):
        name = self.chance.choice(NAMES)
        if self.chance.random() < 0.15:
            self.command(f"loadfile {name} no such.csv", ["refused file missing"])
            return
        records = self.records()
        path = f"table-{len(self.files)}.csv"
        self.files[path] = "".join(line + "\n" for line in self.block_of(records))
        self.update(f"loadfile {name} {path}", plain_lake.load(self.lake, name, records))

    def like(self):
        name = self.chance.choice([table[0] for table in self.lake.tables] or NAMES) if self.chance.random() < 0.8 else self.chance.choice(NAMES)
        most, place = self.chance.choice([1, 2, 5, 10000]), self.chance.randint(1, 5)
        self.command(f"like {most} {name} {place}", plain_lake.like(self.lake, most, name, place))

    def drop(self):
        live = [name for name, _ in self.lake.tables]
        name = self.chance.choice(live if live and self.chance.random() < 0.8 else NAMES)
        self.update(f"drop {name}", plain_lake.drop(self.lake, name))

    def replace(self):
        live = [name for name, _ in self.lake.tables]
        name = self.chance.choice(live if live and self.chance.random() < 0.8 else NAMES)
        records = self.records()
        self.update(f"replace {name}", plain_lake.replace(self.lake, name, records), self.block_of(records))

    def search(self):
        chance = self.chance
        most = chance.choice([1, 2, 3, 5, 10, 10000])
        block = [self.value() for _ in range(chance.randint(0, 7))]
        self.command(f"search {most}", plain_lake.search(self.lake, most, block), block)

    def as_of(self):
        """A search of the past: at some position, at one of the last few, or at one that is still to come."""
        chance, position = self.chance, self.lake.position
        asked = chance.choice([chance.randint(0, position), max(0, position - chance.randint(0, 3)), position + chance.randint(1, 2)])
        most = chance.choice([1, 2, 3, 5, 10, 10000])
        block = [self.value() for _ in range(chance.randint(0, 7))]
        self.command(f"asof {asked} {most}", plain_lake.as_of(self.lake, asked, most, block), block)

    def fraction(self):
        whole = self.chance.choice([1, 2, 3, 10, 10000])
        return self.chance.randint(1, whole), whole

    def contain(self):
        part, whole = self.fraction()
        block = [self.value() for _ in range(self.chance.randint(0, 7))]
        self.command(f"contain {part} {whole}", plain_lake.contain(self.lake, part, whole, block), block)

    def ask(self, questions):
        """These searches, each with a contain of the same values, one after another."""
        for most, (part, whole), block in questions:
            self.command(f"search {most}", plain_lake.search(self.lake, most, block), block)
            if most == 10000:
                self.besides.append((self.commands, part, whole))
            self.command(f"contain {part} {whole}", plain_lake.contain(self.lake, part, whole, block), block)

    def merge(self):
        """A merge, with the same questions before and after it if requested: their rows stay the same, since the model's do not depend on parts."""
        chance = self.chance
        whole = chance.random() < 0.3
        questions = []
        if self.asked_merges:
            questions = [(chance.choice([1, 5, 10000, 10000]), self.fraction(), [self.value() for _ in range(chance.randint(1, 7))]) for _ in range(10)]
        self.ask(questions)
        self.update("merge all" if whole else "merge", plain_lake.merge(self.lake, self.lake, whole))
        self.ask(questions)

    def skipped(self):
        self.lines.append(self.chance.choice(["", "   ", "# a remark", "#load a"]))

    def step(self):
        pick = self.chance.random()
        if pick < 0.02:
            self.lines.append("sync")
        elif pick < 0.04:
            self.skipped()
        elif pick < 0.09:
            self.merge()
        elif pick < 0.13:
            self.command("tables", plain_lake.list_tables(self.lake))
        elif pick < 0.24:
            self.search()
        elif pick < 0.30:
            self.contain()
        elif pick < 0.36:
            self.as_of()
        elif pick < 0.42:
            self.like()
        elif pick < 0.52:
            self.replace()
        elif len(self.lake.tables) >= MOST_TABLES or pick < 0.7:
            self.drop()
        elif pick < 0.9:
            self.load()
        else:
            self.load_file()


def script_of(seed):
    asked_merges = seed > SCRIPTS
    script = Script(seed, asked_merges)
    while script.commands < (MERGE_COMMANDS if asked_merges else COMMANDS):
        script.step()
    return script


def difference(seed, script, josie, folder):
    """The first difference between what josie writes for a script and the model, or None."""
    for path, text in script.files.items():
        with open(os.path.join(folder, path), "w", encoding="utf-8", errors="surrogateescape", newline="") as file:
            file.write(text)
    trace = seed % 2 == 0
    data = "".join(line + "\n" for line in script.lines).encode(errors="surrogateescape")
    words = [josie, "run"] + (["--trace"] if trace else [])
    ended = subprocess.run(words, input=data, capture_output=True, timeout=60, cwd=folder)
    if ended.returncode != 0:
        return f"script {seed}: status {ended.returncode}: {ended.stderr.decode(errors='replace').strip()}"
    wanted = "".join(line + "\n" for line in script.wanted(trace)).encode()
    if ended.stdout == wanted:
        wrong = uneven(script, ended.stdout.decode())
        return wrong and f"script {seed}: contain {wrong} has other rows than the search before it"
    want_lines, got_lines = wanted.split(b"\n"), ended.stdout.split(b"\n")
    for number, (want, got) in enumerate(zip(want_lines, got_lines), 1):
        if want != got:
            return f"script {seed}, line {number} of the replies: want {want!r}, got {got!r}"
    return f"script {seed}: {len(want_lines) - 1} lines of replies wanted, got {len(got_lines) - 1}"


def replies_of(text):
    """The lines of each reply that a run wrote, by its number."""
    replies, number = {}, None
    for line in text.split("\n"):
        if line and not line.startswith(" "):
            number = line.split(" ")[0]
        replies.setdefault(number, []).append(line)
    return replies


def enough_rows(reply, part, whole):
    """The rows of a reply with at least this fraction of the query's values."""
    values = int(reply[0].split(" of ")[1].split(" ")[0])
    rows = [line for line in reply[1:] if re.match("  [0-9]+ ", line)]
    return [line for line in rows if whole * int(line.split()[0]) >= part * values]


def uneven(script, text):
    """The number of the first contain whose rows are not those rows of the search before it that have enough values, or None."""
    replies = replies_of(text)
    for number, part, whole in script.besides:
        all_rows, rows = replies[str(number)], replies[str(number + 1)]
        if " refused " not in all_rows[0] and enough_rows(all_rows, part, whole) != enough_rows(rows, 0, 1):
            return number + 1
    return None


def check(josie, _words):
    commands = besides = 0
    for seed in range(1, SCRIPTS + MERGE_SCRIPTS + 1):
        script = script_of(seed)
        commands += script.commands
        besides += len(script.besides)
        with tempfile.TemporaryDirectory() as folder:
            found = difference(seed, script, josie, folder)
        if found:
            raise Wrong(found)
    return f"{SCRIPTS + MERGE_SCRIPTS} scripts, {commands} commands, as the model says, {besides} contains beside searches"


if __name__ == "__main__":
    main("random lakes", check)
