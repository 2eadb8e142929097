"""What the tests have in common: lakes of the real program, folders of files, and a plain count that says what an answer has to be."""

import os
import tempfile
import unittest

from josie import Lake, Match

STATIONS = b"id,city,height\n1,Oslo,23\n2,Lima,161\n3,Rome,21\n"
RIVERS = b"river,mouth\nTiber,ROME\nRimac,lima\nGlomma,Fredrikstad\n"


def expected(sets, query, k, left_out=None):
    """The k rows that a plain count over sets of ASCII values gives: greater overlap, then table, column and place."""
    rows = [
        (-len(query & values), table, column, place)
        for (table, place, column), values in sets.items()
        if table != left_out and query & values
    ]
    return tuple(Match(-overlap, table, place, column) for overlap, table, column, place in sorted(rows)[:k])


def random_table(draw, values, rows=12):
    """The bytes of a table of three columns, two of one name, and its sets by place and column."""
    columns = [[f"v{draw.randrange(values)}" for _ in range(rows)] for _ in range(3)]
    text = "".join(",".join(record) + "\n" for record in [("a", "b", "a"), *zip(*columns)])
    return text.encode(), {(place, name): set(column) for place, (name, column) in enumerate(zip("aba", columns), 1)}


class InAFolder(unittest.TestCase):
    def folder(self, **files):
        made = tempfile.TemporaryDirectory()
        self.addCleanup(made.cleanup)
        for name, data in files.items():
            self.write(made.name, name + ".csv", data)
        return made.name

    def write(self, folder, name, data):
        path = os.path.join(os.fsencode(folder), os.fsencode(name))
        with open(path, "wb") as file:
            file.write(data)
        return os.fsdecode(path)


class InALake(InAFolder):
    def setUp(self):
        self.lake = self.enterContext(Lake())
