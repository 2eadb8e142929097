"""python -m josie joinable DIR [--k K] [--no-numbers] [--out FILE]: the best partners of every column of a folder of CSV files, as a CSV table.
python -m josie report DIR [--k K] [--no-numbers] [--out FILE]: the same as a page, which is report.html without --out.
"""

from __future__ import annotations

import argparse
import io
import os
import sys
from typing import TextIO

from .errors import JosieError
from .findings import MOST_ROWS
from .partners import Partner, Survey, survey, write_csv
from .reports import page


def main() -> int:
    words = _words()
    try:
        made = survey(words.folder, words.k, numbers=words.numbers)
        _tell(made, sys.stderr)
        text = page(made, os.path.basename(os.path.abspath(words.folder))) if words.command == "report" else _table(made.partners)
        _write(text, words.out)
    except (JosieError, OSError) as error:
        print(f"josie: {error}", file=sys.stderr)
        return 1
    return 0


def _words() -> argparse.Namespace:
    parser = argparse.ArgumentParser(prog="python -m josie", description="Which columns of a folder of CSV files can be joined?")
    commands = parser.add_subparsers(dest="command", required=True)
    for name, about, out in [
        ("joinable", "the best partners of every column, as a CSV table", None),
        ("report", "the same as a page that works without a network", "report.html"),
    ]:
        command = commands.add_parser(name, help=about)
        command.add_argument("folder", metavar="DIR")
        command.add_argument("--k", type=int, default=5, help="how many partners a column, 1 to 10,000 (5)")
        command.add_argument("--no-numbers", dest="numbers", action="store_false", help="leave out columns whose values are all numbers")
        command.add_argument("--out", metavar="FILE", default=out, help=f"where it goes ({out or 'standard output'})")
    return parser.parse_args()


def _tell(made: Survey, to: TextIO) -> None:
    """Prints the files that were refused, what looks wrong with those that were not, and the columns whose results may be incomplete."""
    for path, why in made.load.refused.items():
        print(f"josie: {path}: refused: {why}", file=to)
    for path, warnings in made.load.warnings.items():
        for warning in warnings:
            print(f"josie: {path}: {warning}", file=to)
    for column in made.columns:
        if column.findings is not None and not column.findings.complete:
            print(f"josie: {column.table} {column.place}: {MOST_ROWS:,} rows did not tell all partners or ties of this column", file=to)


def _table(partners: list[Partner]) -> str:
    file = io.StringIO()
    write_csv(partners, file)
    return file.getvalue()


def _write(text: str, out: str | None) -> None:
    """Writes the text to standard output, or to a file, which is written whole or left as it was."""
    if out is None:
        sys.stdout.buffer.write(text.encode("utf-8"))
        return
    part = f"{out}.part"
    try:
        with open(part, "w", encoding="utf-8", newline="") as file:
            file.write(text)
        os.replace(part, out)
    finally:
        if os.path.exists(part):
            os.remove(part)


if __name__ == "__main__":
    sys.exit(main())
