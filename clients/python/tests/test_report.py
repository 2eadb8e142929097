"""Tests of the page: what is in it, and what headless Chromium shows of it."""

import os
import re
import shutil
import subprocess
import tempfile
import unittest
from html.parser import HTMLParser
from urllib.parse import urlencode

from josie import survey
from josie.picture import groups, lines
from josie.reports import page
from support import RIVERS, STATIONS, InAFolder

CHROMIUM = shutil.which("chromium") or shutil.which("chromium-browser") or shutil.which("google-chrome")
HOSTILE = '<script>document.title="taken"</script>&amp;"\'\x01\u202e'


class Page(HTMLParser):
    """The rows of a page's tables that are shown, by the table's id, the tags that it has, and the texts and lines of its picture."""

    def __init__(self, text):
        super().__init__()
        self.tables, self.tags, self.nodes, self.lines, self.texts = {}, [], [], [], []
        self._table = self._row = self._cell = None
        self.feed(text)
        self.close()

    def handle_starttag(self, tag, attributes):
        given = dict(attributes)
        self.tags.append((tag, given))
        if tag == "table":
            self._table = self.tables.setdefault(given["id"], [])
        elif tag == "tr" and self._table is not None:
            self._row = []
            if "hidden" not in given:
                self._table.append(self._row)
        elif tag == "td":
            self._cell = ""
        elif tag == "g":
            self.nodes.append(given["data-table"])
        elif tag == "line":
            self.lines.append((given["data-first"], given["data-second"]))

    def handle_data(self, data):
        self.texts.append(data)
        if self._cell is not None:
            self._cell += data

    def handle_endtag(self, tag):
        if tag == "td":
            self._row.append(self._cell)
            self._cell = None
        elif tag == "table":
            self._table = None

    def rows(self, table):
        return [tuple(row) for row in self.tables[table] if row]


def kind(numbers):
    return {True: "numbers", False: "", None: "?"}[numbers]


def shown(text):
    return text.replace("\x01", "\\x01").replace("\u202e", "\\u202e")


def partner_cells(row):
    """How a partner is shown in the page."""
    return (
        row.table, str(row.place), shown(row.column), f"{row.values:,}", kind(row.numbers),
        row.partner_table, str(row.partner_place), shown(row.partner_column), f"{row.partner_values:,}", kind(row.partner_numbers),
        f"{row.overlap:,}", f"{row.share:.1%}", f"{row.jaccard:.1%}", f"{row.ties:,}" + ("" if row.complete else " or more"),
    )


class InAPage(InAFolder):
    @classmethod
    def setUpClass(cls):
        cls.made = tempfile.TemporaryDirectory()
        cls.addClassCleanup(cls.made.cleanup)
        quoted = HOSTILE.replace('"', '""')
        files = {
            "stations.csv": STATIONS,
            "rivers.csv": RIVERS,
            "heights.csv": b"metres\n23\n161\n8\n",
            "lonely.csv": b"word\nalone\n",
            "ragged <b>.csv": b"a,b\n1\n",
            "\"><img src=x onerror=alert(1)>.csv": f'"{quoted}",2024\nOslo,"{quoted}"\nLima,x\n'.encode(),
        }
        for name, data in files.items():
            with open(os.path.join(cls.made.name, name), "wb") as file:
                file.write(data)
        with open(os.path.join(os.fsencode(cls.made.name), b"\xff.csv"), "wb") as file:
            file.write(b"city\nLima\n")
        cls.survey = survey(cls.made.name, k=3)
        cls.text = page(cls.survey, "<lake> & more")


class Contents(InAPage):
    def test_it_has_the_rows(self):
        read = Page(self.text)
        self.assertEqual(read.rows("partners-table"), [partner_cells(row) for row in self.survey.partners])
        self.assertGreaterEqual(len(self.survey.partners), 10)
        self.assertEqual([row[:1] + row[2:4] for row in read.rows("tables-table")], [
            (table.name, str(table.columns), str(table.members)) for table in self.survey.load.loaded
        ])
        self.assertIn(("ragged <b>.csv", "record 2 has 1 field, and the header has 2"), read.rows("refused-table"))
        self.assertEqual([row[4] for row in read.rows("tables-table") if row[4]], [
            warning for warnings in self.survey.load.warnings.values() for warning in map(shown, warnings)
        ])
        self.assertEqual(len(read.rows("columns-table")), len(self.survey.columns))

    def test_nothing_of_the_files_is_markup_and_nothing_is_fetched(self):
        read = Page(self.text)
        names = [tag for tag, _ in read.tags]
        self.assertEqual((names.count("script"), names.count("img"), names.count("b")), (1, 0, 0))
        self.assertEqual([given for _, given in read.tags if {"src", "srcset", "action", "data"} & set(given)], [])
        self.assertTrue(all(given["href"].startswith("#") for _, given in read.tags if "href" in given))
        self.assertNotIn("\u202e", self.text)
        self.text.encode("utf-8")

    def test_the_picture_has_the_tables_that_hang_together(self):
        read, drawn = Page(self.text), lines(self.survey.partners, 0.5, 2)
        self.assertEqual(read.lines, [(line.first, line.second) for line in drawn])
        self.assertEqual(sorted(read.nodes), sorted(table for group in groups(drawn) for table in group))
        self.assertIn(("rivers", "stations"), read.lines)
        self.assertIn('"><img%20src=x%20onerror=alert(1)>', read.nodes)
        self.assertNotIn("lonely", read.nodes)
        self.assertNotIn("heights", read.nodes)

    def test_a_folder_of_one_table(self):
        read = Page(page(survey(self.folder(alone=b"a\n1\n")), "one"))
        self.assertEqual((read.rows("partners-table"), read.nodes), ([], []))
        self.assertIn("No file was refused.", read.texts)


@unittest.skipUnless(CHROMIUM, "Chromium is not installed (Debian's package chromium)")
class InChromium(InAPage):
    def show(self, *words, **asked):
        """The page as Chromium shows it."""
        path = os.path.join(self.made.name, "report.html")
        with open(path, "w", encoding="utf-8") as file:
            file.write(self.text)
        profile = tempfile.mkdtemp(dir=self.made.name)
        command = [CHROMIUM, "--headless", "--no-sandbox", "--disable-gpu", f"--user-data-dir={profile}", *words, f"file://{path}#{urlencode(asked)}"]
        ended = subprocess.run(command, capture_output=True, timeout=60)
        return ended.stdout.decode("utf-8")

    def test_it_shows_the_rows(self):
        text = self.show("--dump-dom")
        read = Page(text)
        self.assertEqual(read.rows("partners-table"), [partner_cells(row) for row in self.survey.partners])
        self.assertIn("<title>Joinable tables: &lt;lake&gt; &amp; more</title>", text)
        self.assertEqual(re.search(r'<span id="count">(.*?)</span>', text)[1], "{0} of {0} rows".format(len(self.survey.partners)))

    def test_it_sorts_and_filters(self):
        rows = self.survey.partners
        for asked, wanted in [
            ({"sort": "-10"}, sorted(rows, key=lambda row: -row.overlap)),
            ({"sort": "7", "numbers": "0"}, sorted((row for row in rows if not row.numbers and not row.partner_numbers), key=lambda row: shown(row.partner_column))),
            ({"words": "RIVERS mouth", "share": "50"}, [row for row in rows if row.share >= 0.5 and {"rivers", "mouth"} <= {
                row.table, row.partner_table, row.column, row.partner_column}]),
        ]:
            with self.subTest(**asked):
                self.assertEqual(Page(self.show("--dump-dom", **asked)).rows("partners-table"), [partner_cells(row) for row in wanted])
                self.assertGreater(len(wanted), 1)

    def test_it_can_be_seen(self):
        path = os.path.join(self.made.name, "report.png")
        self.show(f"--screenshot={path}", "--window-size=1200,1600")
        with open(path, "rb") as file:
            self.assertEqual(file.read(8), b"\x89PNG\r\n\x1a\n")
