"""Tests of sizes, shares, ties, marks and warnings, against a plain count."""

import importlib.util
import io
import os
import random
import unittest

from josie import CountInvalid, Found, Lake, joinable, profile, survey
from josie.partners import to_frame, write_csv
from support import RIVERS, STATIONS, InAFolder, InALake, expected, random_table


def measured(sets, query, k, numbers=(), left_out=None, leave_numbers_out=False):
    """What the findings have to be: the rows with their measures, how many tie with the last, and how many columns of numbers were left out."""
    rows = expected(sets, query, None, left_out)
    kept = [row for row in rows if not (leave_numbers_out and (row.table, row.place) in numbers)]
    shown = [
        Found(
            row.overlap, row.table, row.place, row.column, len(values), row.overlap / len(query), row.overlap / len(query | values),
            (row.table, row.place) in numbers,
        )
        for row in kept[:k]
        for values in [sets[row.table, row.place, row.column]]
    ]
    worst = kept[k - 1].overlap if len(kept) >= k else 1
    ties = sum(row.overlap == worst for row in kept[k:])
    passed_over = sum(row.overlap >= worst for row in rows) - sum(row.overlap >= worst for row in kept)
    return tuple(shown), ties, passed_over


class Measures(InALake):
    def load_random(self, draw, count, values):
        sets = {}
        for number in range(count):
            text, columns = random_table(draw, values)
            self.lake.load(f"t{number}", text)
            sets.update(((f"t{number}", *column), keys) for column, keys in columns.items())
        return sets

    def test_they_are_those_of_a_plain_count(self):
        draw = random.Random(11)
        sets = self.load_random(draw, 50, 60)
        for _ in range(30):
            query = {f"v{draw.randrange(60)}" for _ in range(draw.randrange(1, 20))}
            k = draw.choice((1, 2, 5, 40, 200))
            found = self.lake.find(query, k)
            self.assertEqual((found.rows, found.ties, found.left_out), measured(sets, query, k))
            self.assertEqual((found.values, found.complete), (len(query), True))
        asked = list(sets)[:70]
        answers = self.lake.find_likes([(table, place) for table, place, _ in asked], k=3)
        for (table, place, name), found in zip(asked, answers):
            self.assertEqual((found.rows, found.ties, found.left_out), measured(sets, sets[table, place, name], 3, left_out=table))
            self.assertEqual(found, self.lake.find_like(table, place, 3))

    def test_columns_of_numbers_are_left_out_and_the_other_rows_stay(self):
        draw = random.Random(12)
        sets, numbers = {}, set()
        for number in range(60):
            kind = draw.choice(("n", "t"))
            values = {str(draw.randrange(30)) for _ in range(8)} | ({"word"} if kind == "t" else set())
            self.lake.load(f"{kind}{number}", ("c\n" + "".join(f"{value}\n" for value in sorted(values))).encode())
            sets[f"{kind}{number}", 1, "c"] = values
            if kind == "n":
                numbers.add((f"n{number}", 1))
        for _ in range(20):
            query = {str(draw.randrange(30)) for _ in range(draw.randrange(1, 15))}
            k = draw.choice((1, 3, 10, 100))
            for leave_out in (False, True):
                found = self.lake.find(query, k, numbers=not leave_out)
                wanted = measured(sets, query, k, numbers, leave_numbers_out=leave_out)
                self.assertEqual((found.rows, found.ties, found.left_out, found.complete), (*wanted, True))

    def test_more_than_an_answer_can_tell_is_said_to_be_more(self):
        wide = ",".join(f"c{number}" for number in range(1000)) + "\n" + ",".join(["7"] * 1000) + "\n"
        for number in range(11):
            self.lake.load(f"w{number:02}", wide.encode())
        self.lake.load("words", b"c\n7\nseven\n")
        found = self.lake.find(["7"], k=5)
        self.assertEqual((len(found), found.ties, found.complete), (5, 9_995, False))
        found = self.lake.find(["7"], k=5, numbers=False)
        self.assertEqual((len(found), found.left_out, found.complete), (0, 10_000, False))
        found = self.lake.find(["7", "seven"], k=1, numbers=False)
        self.assertEqual(([row.table for row in found], found.ties, found.left_out, found.complete), (["words"], 0, 0, True))
        self.assertEqual(self.lake.find(["7"], k=10_000).complete, False)

    def test_sizes_are_the_programs(self):
        self.lake.load("odd", "a,b\nß,1\nSS,01\n ss ,\u00c9\nStra\u00dfe,e\u0301\n".encode())
        self.assertEqual(self.lake.sizes([("odd", 1), ("odd", 2), ("odd", 1)]), [2, 3, 2])
        self.lake.drop("odd")
        self.lake.load("odd", b"a\nx\n")
        self.assertEqual(self.lake.sizes([("odd", 1)]), [1])

    def test_without_profiles_no_column_is_known_to_be_of_numbers(self):
        with Lake(profiles=False) as lake:
            lake.load("stations", STATIONS)
            self.assertEqual(lake.columns("stations"), ("id", "city", "height"))
            self.assertEqual([row.numbers for row in lake.find(["3"], numbers=False)], [None])

    @unittest.skipUnless(importlib.util.find_spec("pandas"), "pandas is not installed")
    def test_frames(self):
        self.lake.load("stations", STATIONS)
        frame = self.lake.find(["rome", "oslo"]).to_frame()
        self.assertEqual(frame.to_dict("records"), [{
            "overlap": 2, "table": "stations", "place": 2, "column": "city", "size": 3, "share": 1.0, "jaccard": 2 / 3, "numbers": False,
        }])


class Profiles(unittest.TestCase):
    def test_numbers(self):
        table = b"a,b,c,d,e,f\n1,2024-01-01,NA,,1e5,7\n-2.5,5,n/a,,+.5,x\n"
        self.assertEqual(profile(table).numbers, (True, False, False, False, True, False))
        late = b"a,b\n" + b"1,x\n" * 5_000 + b"x,y\n"
        self.assertEqual(profile(late).numbers, (False, False))
        self.assertEqual(profile(late[:-4]).numbers, (True, False))
        self.assertEqual(profile(b"\xef\xbb\xbfa,\"b\nc\"\r\n1,2\r\n\r\n3,4\r\n"), profile(b"a,\"b\nc\"\n1,2\n3,4\n"))
        self.assertIsNone(profile(b"a,b\n1\n"))
        self.assertIsNone(profile("/nowhere/table.csv"))
        self.assertEqual(profile(b"a\n" + b"x" * 200_000 + b"\n").columns, ("a",))

    def test_warnings(self):
        for table, words in [
            (b"city,height\nOslo,23\n", None),
            (b"Oslo,23\nLima,161\n", "'23' is a number"),
            (b"Oslo,Norway\nBergen,Norway\n", "'Norway' is also a value of its column"),
            (b"city;height\nOslo;23\nLima;161\n", "a semicolon in its text"),
            (b"city\theight\nOslo\t23\n", "a tab in its text"),
            (b"city|height\n", "a bar in its text"),
            (b"note\nfirst; second\nthird\n", None),
            (b"1,2,3,4,5\na,b,c,d,e\n", ", and 2 more"),
        ]:
            warnings = profile(table).warnings
            self.assertEqual((len(warnings), words is None or words in warnings[0]), (words is not None, True), table)


class Folders(InAFolder):
    def folder_of_all_kinds(self):
        folder = self.folder(stations=STATIONS, rivers=RIVERS, ragged=b"a,b\n1\n", bare=b"Oslo,Norway\nLima,Norway\n")
        self.write(folder, "wind speeds.csv", b"place;speed\nOslo;4\n")
        return folder

    def test_a_survey_says_what_it_found_and_what_looks_wrong(self):
        made = survey(self.folder_of_all_kinds(), k=1)
        self.assertEqual([table.name for table in made.load.loaded], ["bare", "rivers", "stations", "wind%20speeds"])
        self.assertEqual({os.path.basename(path): len(warnings) for path, warnings in made.load.warnings.items()}, {"bare.csv": 1, "wind speeds.csv": 1})
        self.assertEqual({os.path.basename(path): str(why) for path, why in made.load.refused.items()}, {
            "ragged.csv": "record 2 has 1 field, and the header has 2",
        })
        self.assertEqual([(column.table, column.column, column.values, column.numbers) for column in made.columns], [
            ("bare", "Oslo", 1, False), ("bare", "Norway", 1, False), ("rivers", "river", 3, False), ("rivers", "mouth", 3, False),
            ("stations", "id", 3, True), ("stations", "city", 3, False), ("stations", "height", 3, True), ("wind%20speeds", "place;speed", 1, False),
        ])
        self.assertEqual([(row.table, row.column, row.partner_table, row.overlap, row.partner_values, row.jaccard, row.ties) for row in made.partners], [
            ("bare", "Oslo", "rivers", 1, 3, 0.3333, 1),
            ("rivers", "mouth", "stations", 2, 3, 0.5, 0),
            ("stations", "city", "rivers", 2, 3, 0.5, 0),
        ])

    def test_columns_of_numbers_are_neither_asked_nor_found(self):
        folder = self.folder(a=b"n,t\n1,x\n2,y\n", b=b"n,t\n1,x\n2,1\n")
        rows, _ = joinable(folder)
        self.assertEqual([(row.table, row.column, row.partner_column, row.numbers, row.partner_numbers) for row in rows], [
            ("a", "n", "n", True, True), ("a", "n", "t", True, False), ("a", "t", "t", False, False),
            ("b", "n", "n", True, True), ("b", "t", "n", False, True), ("b", "t", "t", False, False),
        ])
        rows, _ = joinable(folder, numbers=False)
        self.assertEqual([(row.table, row.column, row.partner_column) for row in rows], [("a", "t", "t"), ("b", "t", "t")])

    def test_nothing_is_loaded_where_k_is_out_of_range(self):
        with self.assertRaises(CountInvalid):
            joinable("/nowhere", k=0)

    @unittest.skipUnless(importlib.util.find_spec("pandas"), "pandas is not installed")
    def test_the_rows_are_the_same_as_a_file_and_as_a_frame(self):
        import pandas

        rows, _ = joinable(self.folder_of_all_kinds())
        file = io.StringIO()
        write_csv(rows, file)
        pandas.testing.assert_frame_equal(pandas.read_csv(io.StringIO(file.getvalue())), to_frame(rows), check_dtype=False)
        self.assertGreater(len(rows), 3)
