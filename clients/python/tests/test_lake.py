"""Tests of the client against the real program: the one that the variable JOSIE names, or that was built in this repository.

    PYTHONPATH=clients/python python3 -m unittest discover -s clients/python/tests
"""

import contextlib
import csv
import doctest
import importlib.util
import io
import os
import pickle
import random
import re
import signal
import stat
import subprocess
import sys
import types
import unittest
from unittest import mock

import josie
from josie import Dropped, Lake, Loaded, Match, Merged, PastAnswer, Replaced, Table
from josie.errors import refusal
from josie.names import is_name
from josie.program import find_program
from josie.replies import parsed
from support import RIVERS, STATIONS, InALake, expected, random_table

class Calls(InALake):
    def test_each_call_has_its_reply(self):
        self.assertEqual(self.lake.load("stations", STATIONS), Loaded("stations", 3, 9, 1))
        path = os.path.join(self.folder(rivers=RIVERS), "rivers.csv")
        self.assertEqual(self.lake.load("rivers", path), Loaded("rivers", 2, 6, 2))
        self.assertEqual(self.lake.tables(), [Table("stations", 3, 9), Table("rivers", 2, 6)])
        self.assertEqual(self.lake.columns("stations"), ("id", "city", "height"))
        answer = self.lake.search(["oslo", "ROME", "Rome", "Paris", "lima"])
        self.assertEqual((answer.values, answer.position), (4, 2))
        self.assertEqual(list(answer), [Match(3, "stations", 2, "city"), Match(2, "rivers", 2, "mouth")])
        self.assertEqual([answer.share(match) for match in answer], [0.75, 0.5])
        self.assertEqual(self.lake.search(["oslo", "rome"], k=1).matches, (Match(2, "stations", 2, "city"),))
        self.assertEqual(self.lake.like("stations", "city"), self.lake.like("stations", 2))
        self.assertEqual(list(self.lake.like("stations", "city")), [Match(2, "rivers", 2, "mouth")])
        self.assertEqual(list(self.lake.contain(["oslo", "rome", "lima", "bern"], 3, 4)), [Match(3, "stations", 2, "city")])
        self.assertEqual(list(self.lake.contain(["rome", "LIMA"])), [Match(2, "rivers", 2, "mouth"), Match(2, "stations", 2, "city")])
        self.assertEqual(self.lake.asof(1, ["rome", "LIMA"]), PastAnswer(2, 1, 2, (Match(2, "stations", 2, "city"),)))
        self.assertEqual(self.lake.asof(0, ["rome"]), PastAnswer(1, 0, 2, ()))
        self.assertEqual(self.lake.merge(), Merged(2, 2, 3))
        self.assertIsNone(self.lake.merge())
        self.assertIsNone(self.lake.merge(whole=False))
        self.assertEqual(self.lake.replace("rivers", b"name,source\nTiber,Verghereto\n"), Replaced("rivers", 2, 2, 4))
        self.assertEqual(self.lake.columns("rivers"), ("name", "source"))
        self.assertEqual(list(self.lake.search(["oslo", "rome", "tiber"])), [Match(2, "stations", 2, "city"), Match(1, "rivers", 1, "name")])
        self.assertEqual(self.lake.drop("stations"), Dropped("stations", 5))
        self.assertEqual(len(self.lake.like("rivers", "name")), 0)
        self.assertEqual(len(self.lake.search(["rome"])), 0)
        self.assertEqual(list(self.lake.asof(4, ["rome"])), [Match(1, "stations", 2, "city")])
        self.assertEqual(list(self.lake.asof(3, ["rome"])), [Match(1, "rivers", 2, "mouth"), Match(1, "stations", 2, "city")])
        self.assertEqual(list(self.lake.asof(3, ["rome"], k=1)), [Match(1, "rivers", 2, "mouth")])
        self.assertEqual(self.lake.asof(5, ["rome", "paris"]), PastAnswer(2, 5, 5, ()))

    def test_answers_are_those_of_a_plain_count(self):
        draw = random.Random(7)
        sets = {}
        for number in range(60):
            text, columns = random_table(draw, 90)
            self.lake.load(f"t{number}", text)
            sets.update(((f"t{number}", *column), values) for column, values in columns.items())
        for turn in range(40):
            if turn == 20:
                self.lake.merge()
            if turn % 10 == 5:
                gone = f"t{draw.randrange(15) + turn}"
                self.lake.drop(gone)
                sets = {of: values for of, values in sets.items() if of[0] != gone}
            query = {f"v{draw.randrange(90)}" for _ in range(draw.randrange(30))}
            k = draw.choice((1, 3, 10, 500))
            self.assertEqual(self.lake.search(query, k).matches, expected(sets, query, k))
            table, place, name = draw.choice(list(sets))
            found = self.lake.like(table, place, k).matches
            self.assertEqual(found, expected(sets, sets[table, place, name], k, left_out=table))

    def test_values_and_names_of_every_kind(self):
        names = ['with "quotes"', "back\\slash", "two\nlines", "tab\t", "\x01\x7f", "Ü", ""]
        text = io.StringIO()
        csv.writer(text, lineterminator="\n", quoting=csv.QUOTE_ALL).writerow(names)
        text.write(".,..,.,x,É,ß,y\n")
        self.lake.load("odd", text.getvalue().encode())
        self.assertEqual(self.lake.columns("odd"), tuple(names))
        self.assertEqual({match.column: match.overlap for match in self.lake.search([".", "..", "e\u0301", "SS", "X", ""])}, {
            names[0]: 1, names[1]: 1, names[2]: 1, names[3]: 1, names[4]: 1, names[5]: 1,
        })
        self.assertEqual(self.lake.like("odd", "tab\t"), self.lake.like("odd", 4))

    def test_much_at_once_fills_no_pipe(self):
        wide = ",".join(f"c{number}" for number in range(1000)) + "\n" + ",".join(["same"] * 1000) + "\n"
        for number in range(11):
            self.lake.load(f"w{number}", wide.encode())
        answer = self.lake.search(["same"] + [f"value {number}" for number in range(300_000)], k=10_000)
        self.assertEqual((answer.values, len(answer)), (300_001, 10_000))
        answers = self.lake.likes([("w0", place) for place in range(1, 6)], k=10_000)
        self.assertEqual([len(answer) for answer in answers], [10_000] * 5)

    @unittest.skipUnless(importlib.util.find_spec("pandas"), "pandas is not installed")
    def test_frames_go_in_and_out(self):
        import pandas

        self.lake.load("frame", pandas.DataFrame({"city": ["Oslo", "Rome"], "height": [23, 21]}))
        frame = self.lake.search(["rome"]).to_frame()
        self.assertEqual(list(frame.itertuples(index=False, name=None)), [(1, 1.0, "frame", 1, "city")])


class Compatibility(InALake):
    def test_full_width_letters_are_letters(self):
        wide = "ＯＳＬＯ"
        self.lake.load("stations", STATIONS)
        self.assertEqual(self.lake.search([wide]).matches, ())
        with Lake(compatibility=True) as lake:
            lake.load("stations", STATIONS)
            self.assertEqual(lake.search([wide]).matches, (Match(1, "stations", 2, "city"),))


class Refusals(InALake):
    def test_each_is_of_its_class_and_changes_nothing(self):
        self.lake.load("stations", STATIONS)
        for kind, call in [
            (josie.NameTaken, lambda: self.lake.load("stations", RIVERS)),
            (josie.TableUnknown, lambda: self.lake.drop("rivers")),
            (josie.TableUnknown, lambda: self.lake.replace("rivers", RIVERS)),
            (josie.TableRefused, lambda: self.lake.replace("stations", b"a,b\n1\n")),
            (josie.TableUnknown, lambda: self.lake.like("rivers", 1)),
            (josie.CountInvalid, lambda: self.lake.contain(["Oslo"], 2, 1)),
            (josie.PositionUnknown, lambda: self.lake.asof(2, ["Oslo"])),
            (josie.PositionUnknown, lambda: self.lake.asof(-1, ["Oslo"])),
            (josie.PositionUnknown, lambda: self.lake.asof(4_294_967_296, ["Oslo"])),
            (josie.CountInvalid, lambda: self.lake.asof(1, ["Oslo"], k=0)),
            (josie.ValueInvalid, lambda: self.lake.asof(1, ["two\nlines"])),
            (josie.ColumnUnknown, lambda: self.lake.like("stations", 4)),
            (josie.ColumnUnknown, lambda: self.lake.like("stations", "town")),
            (josie.TableUnknown, lambda: self.lake.like("rivers", "mouth")),
            (josie.TableUnknown, lambda: self.lake.columns("rivers")),
            (josie.TableUnknown, lambda: self.lake.find_like("rivers", 1)),
            (josie.ColumnUnknown, lambda: self.lake.sizes([("stations", 1), ("stations", 4)])),
            (josie.ColumnUnknown, lambda: self.lake.like("stations", 0)),
            (josie.FileRefused, lambda: self.lake.load("rivers", "/nowhere/rivers.csv")),
            (josie.TableRefused, lambda: self.lake.load("rivers", b"")),
            (josie.NameInvalid, lambda: self.lake.load("two words", RIVERS)),
            (josie.NameInvalid, lambda: self.lake.drop("")),
            (josie.NameInvalid, lambda: self.lake.load("\ud800", RIVERS)),
            (FileNotFoundError, lambda: self.lake.load("rivers", "/nowhere/two\nlines.csv")),
            (josie.ValueInvalid, lambda: self.lake.search(["two\nlines"])),
            (josie.ValueInvalid, lambda: self.lake.search(["\ud800"])),
            (josie.TooLong, lambda: self.lake.load("long", b"x" * 67_108_865)),
            (josie.CountInvalid, lambda: self.lake.search(["Oslo"], k=0)),
            (josie.CountInvalid, lambda: self.lake.like("stations", 1, k=10_001)),
            (josie.CountInvalid, lambda: self.lake.find(["Oslo"], k=-1)),
            (josie.CountInvalid, lambda: self.lake.find_likes([], k=10_001)),
            (TypeError, lambda: self.lake.load("number", 5)),
        ]:
            with self.subTest(kind=kind.__name__), self.assertRaises(kind):
                call()
        self.assertEqual(self.lake.tables(), [Table("stations", 3, 9)])
        self.assertEqual(self.lake.load("rivers", RIVERS).position, 2)

    def test_what_is_wrong_with_a_table_is_told(self):
        for data, record, field in [(b"a,b\n1,2\n1\n", 3, None), (b"a,b\n1,\xff\n", 2, 2), (b"a," * 1024 + b"a\n", None, None)]:
            with self.assertRaises(josie.TableRefused) as raised:
                self.lake.load("wrong", data)
            self.assertEqual((raised.exception.record, raised.exception.field), (record, field))

    def test_a_refusal_says_the_reason_in_words(self):
        for reply, words in [
            ("refused repeated stations at 1", "a table named stations is live"),
            ("refused unknown rivers at 4", "no table named rivers is live"),
            ("refused column stations 9 at 2", "the table stations has no column 9"),
            ("refused later 4 at 3", "the lake has no position 4 yet; its history ends at 3"),
            ("refused file missing", "there is no such file"),
            ("refused full tables 65536 more 1 at 65536", "the lake has 65,536 live tables, and 1 more are too many"),
            ("refused csv no-header", "it has no header"),
            ("refused csv columns 1025", "its header has 1,025 columns, and at most 1,024 may be"),
            ("refused csv record 2 want 4 got 3", "record 2 has 3 fields, and the header has 4"),
            ("refused csv record 2 field 1 not UTF-8", "field 1 of record 2 is not UTF-8; the file may have another encoding"),
            ("refused values column 3", "column 3 has more than 4,194,304 distinct values"),
            ("no memory", "the program ran out of memory for this command"),
        ]:
            refused = refusal(reply)
            self.assertEqual((str(refused), refused.reply), (words, reply))

    def test_exceptions_come_whole_out_of_another_process(self):
        for error in [
            refusal("refused full tables 65536 more 1 at 65536"),
            refusal("refused csv record 2 field 1 not UTF-8"),
            refusal("refused later 4 at 3"),
            josie.LakeEnded(-9, "killed"),
            josie.ShardFailed(2, "tcp://127.0.0.1:9", "its worker is gone"),
        ]:
            again = pickle.loads(pickle.dumps(error))
            self.assertEqual((type(again), str(again), vars(again)), (type(error), str(error), vars(error)))

    def test_each_reply_of_the_formats_is_known(self):
        formats = os.path.join(os.path.dirname(__file__), "..", "..", "..", "docs", "FORMATS.md")
        with open(formats, encoding="utf-8") as file:
            table = file.read().split("| Reply | Meaning | Example |", 1)[1].split("\n\n", 1)[0]
        examples = [example for example in re.findall(r"\| `([^`]*)` \|$", table, re.MULTILINE) if not example.startswith("  ")]
        replies = {example: parsed(example.encode(), []) for example in examples}
        for example, reply in replies.items():
            with self.subTest(example):
                self.assertEqual(isinstance(reply, josie.Refused), " refused " in example or example.endswith(" no memory"))
        full = replies["65537 refused full tables 65536 more 1 at 65536"]
        self.assertEqual((type(full), full.what, full.count, full.more), (josie.LakeFull, "tables", 65536, 1))
        later = replies["7 refused later 4 at 3"]
        self.assertEqual((type(later), later.last), (josie.PositionUnknown, 3))
        self.assertEqual(replies["9 answer 4 of 8 as of 6 at 8"], PastAnswer(8, 6, 8, ()))
        self.assertEqual(type(replies["4 no memory"]), josie.OutOfMemory)
        self.assertEqual(type(replies["1 refused query values"]), josie.QueryRefused)
        self.assertGreater(len(replies), 20)

    def test_a_program_that_is_gone(self):
        with self.assertRaises(josie.LakeEnded):
            Lake("/nowhere/josie")
        self.lake.close()
        with self.assertRaises(josie.LakeEnded):
            self.lake.tables()
        for status, meaning in [(5, "ran out of memory"), (3, "reading failed"), (77, "exit code 77"), (-9, "signal 9")]:
            path = os.path.join(self.folder(), "program")
            with open(path, "w") as file:
                file.write(f"#!/bin/sh\nread line\n{f'exit {status}' if status > 0 else f'kill {status} $$'}\n")
            os.chmod(path, stat.S_IRWXU)
            with Lake(path) as lake, self.assertRaises(josie.LakeEnded) as raised:
                lake.tables()
            self.assertEqual(raised.exception.status, status)
            self.assertIn(meaning, str(raised.exception))

    def test_values_that_break_off_are_not_sent(self):
        def values():
            yield "Oslo"
            raise KeyboardInterrupt

        with self.assertRaises(KeyboardInterrupt):
            self.lake.search(values())
        self.assertEqual(self.lake.tables(), [])

    def test_a_call_that_was_broken_off_is_the_last(self):
        def interrupt(*_):
            raise KeyboardInterrupt

        path = os.path.join(self.folder(), "program")
        with open(path, "w") as file:
            file.write("#!/bin/sh\nwhile read line; do :; done\n")
        os.chmod(path, stat.S_IRWXU)
        before = signal.signal(signal.SIGALRM, interrupt)
        self.addCleanup(signal.signal, signal.SIGALRM, before)
        with Lake(path) as lake:
            signal.setitimer(signal.ITIMER_REAL, 2.0)
            with self.assertRaises(KeyboardInterrupt):
                lake.tables()
            with self.assertRaises(josie.LakeEnded):
                lake.tables()


class Folders(InALake):
    def run_client(self, *words):
        env = {**os.environ, "PYTHONPATH": os.pathsep.join(sys.path)}
        return subprocess.run([sys.executable, "-m", "josie", *words], capture_output=True, text=True, timeout=60, env=env)

    def test_a_folder_with_files_that_are_no_tables(self):
        folder = self.folder(stations=STATIONS, rivers=RIVERS, ragged=b"a,b\n1\n", latin=b"a\n\xe9\n", empty=b"")
        self.write(folder, "wind speeds.csv", b"city\nOslo\n")
        self.write(folder, "STATIONS.CSV", b"city\nLima\n")
        self.write(folder, "notes.txt", b"no table\n")
        self.write(folder, b"\xff.csv", b"city\nRome\n")
        self.write(folder, "n" * 251 + ".csv", b"city\nRome\n")
        self.write(folder, "ü" * 100 + ".csv", b"city\nRome\n")
        load = self.lake.load_folder(folder)
        self.assertEqual([table.name for table in load.loaded], [
            "STATIONS.CSV%", "n" * 251, "rivers", "stations", "wind%20speeds", "%FF",
        ])
        self.assertEqual({os.path.basename(path): type(why) for path, why in load.refused.items()}, {
            "ragged.csv": josie.TableRefused, "latin.csv": josie.TableRefused, "empty.csv": josie.TableRefused,
            "ü" * 100 + ".csv": josie.NameInvalid,
        })
        self.assertEqual([match.table for match in self.lake.search(["rome"])], ["%FF", "n" * 251, "rivers", "stations"])

    def test_no_two_files_have_one_table(self):
        draw = random.Random(4)
        pieces = [b".csv", b".CSV", b"%", b"%25", b"25", b"a", b" ", b"\xc3\xa9", b"\xff", b"\n", b"."]
        files = {b"".join(draw.choices(pieces, k=draw.randrange(1, 6))) for _ in range(20_000)}
        names = {josie.table_name(os.fsdecode(b"folder/" + file)) for file in files}
        self.assertEqual(len(names), len(files))
        self.assertGreater(len(files), 5_000)
        self.assertTrue(all(is_name(name.encode()) for name in names - {""}))

    def test_more_files_than_a_batch_has_commands(self):
        folder = self.folder(**{f"f{number:04}": b"name\n%d\n" % number for number in range(4_100)})
        load = self.lake.load_folder(folder)
        self.assertEqual((len(load.loaded), len(load.refused), load.loaded[-1].position), (4_100, 0, 4_100))

    def test_a_folder_without_tables(self):
        with self.assertRaises(josie.FolderEmpty):
            self.lake.load_folder(self.folder())
        with self.assertRaises(FileNotFoundError):
            self.lake.load_folder("/nowhere")

    def test_joinable_at_the_command_line(self):
        folder = self.folder(stations=STATIONS, rivers=RIVERS, ragged=b"a,b\n1\n")
        ended = self.run_client("joinable", folder, "--k", "1")
        self.assertEqual(ended.returncode, 0)
        self.assertIn("ragged.csv: refused: record 2 has 1 field, and the header has 2", ended.stderr)
        self.assertEqual(ended.stdout.splitlines(), [
            "table,place,column,values,partner_table,partner_place,partner_column,overlap,share,partner_values,jaccard,numbers,partner_numbers,ties,complete",
            "rivers,2,mouth,3,stations,2,city,2,0.6667,3,0.5,false,false,0,true",
            "stations,2,city,3,rivers,2,mouth,2,0.6667,3,0.5,false,false,0,true",
        ])

    def test_columns_of_which_not_all_is_told_are_named(self):
        wide = (",".join(["c"] * 1000) + "\n" + ",".join(["7"] * 1000) + "\n").encode()
        folder = self.folder(a=b"c\n7\nx\n", **{f"w{number:02}": wide for number in range(11)})
        ended = self.run_client("joinable", folder, "--no-numbers")
        self.assertEqual(len(ended.stdout.splitlines()), 1)
        self.assertEqual(ended.stderr, "josie: a 1: 10,000 rows did not tell all partners or ties of this column\n")

    def test_a_command_that_is_refused_leaves_what_was_there(self):
        folder = self.folder(stations=STATIONS)
        out = self.write(folder, "partners.out", b"as before")
        for words, told in [(["--k", "0"], "k is 1 to 10,000, not 0"), (["--k", "10001"], "not 10001")]:
            for command in ("joinable", "report"):
                ended = self.run_client(command, folder, *words, "--out", out)
                self.assertEqual((ended.returncode, told in ended.stderr), (1, True))
        empty = self.folder()
        ended = self.run_client("report", empty, "--out", out)
        self.assertEqual((ended.returncode, ended.stderr), (1, f"josie: {empty} has no file whose name ends in .csv\n"))
        with open(out, "rb") as file:
            self.assertEqual(file.read(), b"as before")
        self.assertEqual(sorted(os.listdir(folder)), ["partners.out", "stations.csv"])

    def test_a_bar_is_shown_on_a_terminal(self):
        class Terminal(io.StringIO):
            def isatty(self):
                return True

        shown = []

        class Bar(contextlib.AbstractContextManager):
            def __init__(self, total, **_):
                shown.append(total)

            def __exit__(self, *_):
                shown.append("end")

            def update(self, count):
                shown.append(count)

        folder = self.folder(**{f"f{number:03}": b"name\n%d\n" % number for number in range(130)})
        with mock.patch.dict(sys.modules, {"tqdm": types.SimpleNamespace(tqdm=Bar)}), mock.patch("sys.stderr", Terminal()):
            self.lake.load_folder(folder)
        self.assertEqual(shown, [130, 64, 64, 2, "end"])
        with mock.patch.dict(sys.modules, {"tqdm": None}), mock.patch("sys.stderr", Terminal()), Lake() as lake:
            self.assertEqual(len(lake.load_folder(folder).loaded), 130)


def load_tests(loader, tests, _pattern):
    """The examples of the package are tests too."""
    os.environ["JOSIE"] = find_program()
    for module in ("josie", *(f"josie.{name}" for name in ("errors", "lake", "names", "partners", "profiles", "sharded", "text"))):
        tests.addTests(doctest.DocTestSuite(module))
    return tests


if __name__ == "__main__":
    unittest.main()
