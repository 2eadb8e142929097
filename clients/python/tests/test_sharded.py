"""Tests of a lake over the four workers of a local Dask cluster, against one lake that holds all tables."""

import importlib.util
import logging
import os
import random
import signal
import unittest

import josie
from josie import Answer, Lake, Match, ShardedLake, Table
from josie.sharded import merged, shard_of
from support import RIVERS, STATIONS, InAFolder, expected, random_table

# of the names' bytes, by `b2sum -l 64`
B2SUMS = {"stations": 0xA87D4A7BD65B06B0, "rivers": 0xD927CA91F2D8A33C}
HAS_DASK = importlib.util.find_spec("distributed") is not None


class Merging(unittest.TestCase):
    def test_rows_are_merged_in_answer_order(self):
        answers = [
            Answer(9, 1, (Match(5, "b", 1, "c"), Match(3, "a", 2, "x"), Match(3, "a", 3, "x"))),
            Answer(9, 1, ()),
            Answer(9, 1, (Match(5, "a~", 9, "c"), Match(3, "a", 1, "y"), Match(2, "a", 1, "\U00010000"))),
            Answer(9, 1, (Match(2, "a", 2, "\uffff"),)),
        ]
        self.assertEqual([(row.overlap, row.table, row.place) for row in merged(answers, 10)], [
            (5, "a~", 9), (5, "b", 1), (3, "a", 2), (3, "a", 3), (3, "a", 1), (2, "a", 2), (2, "a", 1),
        ])
        self.assertEqual(merged(answers, 2), merged(answers, 10)[:2])

    def test_a_table_stays_in_its_shard(self):
        for name, sum_of in B2SUMS.items():
            self.assertEqual([shard_of(name, shards) for shards in (1, 4, 1000)], [sum_of % shards for shards in (1, 4, 1000)])
        counts = [0] * 4
        for number in range(4_000):
            counts[shard_of(f"t{number}", 4)] += 1
        self.assertTrue(all(900 < count < 1_100 for count in counts))


@unittest.skipUnless(HAS_DASK, "Dask is not installed (Debian's package python3-distributed)")
class OnACluster(InAFolder):
    @classmethod
    def setUpClass(cls):
        from distributed import Client, LocalCluster

        logging.getLogger("distributed").setLevel(logging.CRITICAL)
        cls.cluster = cls.enterClassContext(
            LocalCluster(n_workers=4, threads_per_worker=1, dashboard_address=None, silence_logs=logging.CRITICAL)
        )
        cls.client = cls.enterClassContext(Client(cls.cluster))

    def lake(self):
        return self.enterContext(ShardedLake(self.client))

    def test_answers_are_those_of_one_lake(self):
        draw = random.Random(5)
        sets, alone, sharded = {}, self.enterContext(Lake()), self.lake()
        for number in range(80):
            text, columns = random_table(draw, 40)
            alone.load(f"t{number}", text)
            sharded.load(f"t{number}", text)
            sets.update(((f"t{number}", *column), keys) for column, keys in columns.items())
        self.assertEqual({shard_of(f"t{number}", 4) for number in range(80)}, {0, 1, 2, 3})
        for turn in range(30):
            if turn == 15:
                sharded.merge()
            if turn % 5 == 2:
                gone = f"t{turn}"
                self.assertEqual((alone.drop(gone).name, sharded.drop(gone).name), (gone, gone))
                sets = {of: keys for of, keys in sets.items() if of[0] != gone}
            query = {f"V{draw.randrange(40)} " for _ in range(draw.randrange(1, 12))}
            k = draw.choice((1, 2, 7, 30, 10_000))
            found, wanted = sharded.search(query, k), alone.search(query, k)
            self.assertEqual((found.matches, found.values), (wanted.matches, wanted.values))
            self.assertEqual(found.matches, expected(sets, {value.strip().lower() for value in query}, k))
        self.assertEqual(sharded.tables(), sorted(alone.tables(), key=lambda table: table.name))

    def test_refusals_change_nothing(self):
        lake = self.lake()
        lake.load("stations", STATIONS)
        for kind, call in [
            (josie.NameTaken, lambda: lake.load("stations", RIVERS)),
            (josie.TableUnknown, lambda: lake.drop("rivers")),
            (josie.TableRefused, lambda: lake.load("rivers", b"a,b\n1\n")),
            (josie.NameInvalid, lambda: lake.load("two words", RIVERS)),
            (josie.TooLong, lambda: lake.load("long", b"x" * 67_108_865)),
            (josie.ValueInvalid, lambda: lake.search(["two\nlines"])),
            (josie.CountInvalid, lambda: lake.search(["Oslo"], k=0)),
            (FileNotFoundError, lambda: lake.load("rivers", "/nowhere/rivers.csv")),
            (josie.FolderEmpty, lambda: lake.load_folder(self.folder())),
        ]:
            with self.subTest(kind=kind.__name__), self.assertRaises(kind):
                call()
        self.assertEqual(lake.tables(), [Table("stations", 3, 9)])
        lake.close()
        with self.assertRaises(josie.LakeEnded):
            lake.tables()

    def test_a_folder(self):
        files = {f"f{number:03}": f"name\nv{number % 7}\n".encode() for number in range(300)}
        folder = self.folder(**files, ragged=b"a,b\n1\n", latin=b"a\n\xe9\n")
        self.write(folder, "ü" * 100 + ".csv", b"city\nRome\n")
        lake = self.lake()
        load = lake.load_folder(folder)
        self.assertEqual([loaded.name for loaded in load.loaded], sorted(files))
        self.assertEqual({os.path.basename(path): type(why) for path, why in load.refused.items()}, {
            "ragged.csv": josie.TableRefused, "latin.csv": josie.TableRefused, "ü" * 100 + ".csv": josie.NameInvalid,
        })
        self.assertEqual([match.table for match in lake.search(["V3"], k=4)], ["f003", "f010", "f017", "f024"])

    def test_a_josie_that_dies_is_named_and_no_part_is_answered(self):
        lake = self.lake()
        lake.load("stations", STATIONS)
        wrong = shard_of("stations", 4)
        worker = lake._workers[wrong]

        def children():
            import psutil

            return [child.pid for child in psutil.Process().children() if child.name().startswith("josie")]

        (pid,) = self.client.run(children, workers=[worker])[worker]
        os.kill(pid, signal.SIGKILL)
        for call in (lambda: lake.search(["Oslo"]), lambda: lake.search(["Oslo"]), lake.tables, lambda: lake.load("x", RIVERS)):
            with self.assertRaises(josie.ShardFailed) as raised:
                call()
            self.assertEqual((raised.exception.shard, raised.exception.worker), (wrong, worker))
            self.assertIn("signal 9", str(raised.exception))

    def test_a_program_that_is_not_there(self):
        with self.assertRaises(josie.ShardFailed) as raised:
            ShardedLake(self.client, program="/nowhere/josie")
        self.assertEqual(raised.exception.shard, 0)
        with self.assertRaises(josie.JosieError):
            ShardedLake(self.client, shards=0)

    def test_a_worker_that_dies_is_named(self):
        self.addCleanup(self.client.wait_for_workers, 4)  # a new one comes for it
        lake = self.lake()
        for number in range(20):
            lake.load(f"t{number}", b"c\nx\n")
        worker = lake._workers[2]
        pid = self.client.run(os.getpid, workers=[worker])[worker]
        os.kill(pid, signal.SIGKILL)
        for _ in range(2):
            with self.assertRaises(josie.ShardFailed) as raised:
                lake.search(["x"])
            self.assertEqual((raised.exception.shard, raised.exception.worker), (2, worker))
