"""The best partners of every column of a folder of CSV files."""

from __future__ import annotations

import csv
import os
from collections.abc import Iterable, Iterator
from dataclasses import astuple, dataclass, fields
from typing import IO, TYPE_CHECKING

from .errors import ColumnUnknown
from .findings import Findings, checked_k
from .lake import Lake, progress
from .replies import FolderLoad

if TYPE_CHECKING:
    import pandas

#: The number of columns that are asked about at once, few enough that a bar can show the progress.
_ASKED_AT_ONCE = 256


@dataclass(frozen=True)
class Partner:
    """A column of `values` distinct values, and a column of another table that shares `overlap` of them.

    `partner_values` is the number of the partner's own distinct values; `share` is the overlap divided by `values`, and `jaccard` by the number of
    distinct values that the two have together. `numbers` and `partner_numbers` say whether all values are numbers (`None`: not known). `ties` is the
    number of further columns that share as many values as this column's last partner, and were cut by their names; if `complete` is false, there
    may be more of them.
    """

    table: str
    place: int
    column: str
    values: int
    partner_table: str
    partner_place: int
    partner_column: str
    overlap: int
    share: float
    partner_values: int
    jaccard: float
    numbers: bool | None
    partner_numbers: bool | None
    ties: int
    complete: bool


@dataclass(frozen=True)
class Asked:
    """A column of a folder's table, and what was found for it: `None` if it was left out as a column of numbers. `values` is the number of its
    distinct values."""

    table: str
    place: int
    column: str
    values: int
    numbers: bool | None
    findings: Findings | None

    def partners(self) -> Iterator[Partner]:
        """A row for each partner, with ratios of four digits."""
        if self.findings is None:
            return
        for row in self.findings:
            yield Partner(
                table=self.table,
                place=self.place,
                column=self.column,
                values=self.values,
                partner_table=row.table,
                partner_place=row.place,
                partner_column=row.column,
                overlap=row.overlap,
                share=round(row.share, 4),
                partner_values=row.size,
                jaccard=round(row.jaccard, 4),
                numbers=self.numbers,
                partner_numbers=row.numbers,
                ties=self.findings.ties,
                complete=self.findings.complete,
            )


@dataclass(frozen=True)
class Survey:
    """The result of loading a folder, and what was found for each column of its tables, in the order in which they were loaded."""

    load: FolderLoad
    columns: tuple[Asked, ...]

    @property
    def partners(self) -> list[Partner]:
        """The partners of all columns."""
        return [partner for column in self.columns for partner in column.partners()]


def survey(folder: str | os.PathLike[str], k: int = 5, *, numbers: bool = True, program: str | None = None) -> Survey:
    """For every column of the tables in the folder its k best partners in other tables; without `numbers` the columns of numbers are left out
    on both sides.

    Raises `CountInvalid` or `FolderEmpty` before the program is run or anything is loaded.
    """
    checked_k(k)
    with Lake(program) as lake:
        load = lake.load_folder(folder)
        lake.merge()
        return Survey(load, tuple(_asked(lake, load, k, numbers)))


def joinable(folder: str | os.PathLike[str], k: int = 5, program: str | None = None, *, numbers: bool = True) -> tuple[list[Partner], FolderLoad]:
    """The partners that `survey` finds, and the result of loading the folder.

    >>> from tempfile import TemporaryDirectory
    >>> with TemporaryDirectory() as folder:
    ...     for name, text in {"stations": "city\\nOslo\\nLima\\n", "rivers": "river,mouth\\nRimac,LIMA\\n"}.items():
    ...         with open(f"{folder}/{name}.csv", "w") as file:
    ...             _ = file.write(text)
    ...     partners, load = joinable(folder)
    >>> [(row.table, row.column, row.partner_table, row.partner_column, row.overlap, row.share, row.jaccard) for row in partners]
    [('rivers', 'mouth', 'stations', 'city', 1, 1.0, 0.5), ('stations', 'city', 'rivers', 'mouth', 1, 0.5, 0.5)]
    """
    made = survey(folder, k, numbers=numbers, program=program)
    return made.partners, made.load


def _asked(lake: Lake, load: FolderLoad, k: int, numbers: bool) -> Iterator[Asked]:
    columns = [(table.name, place) for table in load.loaded for place in range(1, table.columns + 1)]
    asked = [column for column in columns if numbers or not lake.is_numbers(*column)]
    findings: dict[tuple[str, int], Findings] = {}
    with progress(len(asked), "column") as bar:
        for first in range(0, len(asked), _ASKED_AT_ONCE):
            some = asked[first : first + _ASKED_AT_ONCE]
            findings.update(zip(some, lake.find_likes(some, k, numbers=numbers)))
            bar.update(len(some))
    for (table, place), size in zip(columns, lake.sizes(columns)):
        yield Asked(table, place, _column_name(lake, table, place), size, lake.is_numbers(table, place), findings.get((table, place)))


def _column_name(lake: Lake, table: str, place: int) -> str:
    """The name of a column, which is empty if the header could not be read here."""
    try:
        return lake.columns(table)[place - 1]
    except ColumnUnknown:
        return ""


def write_csv(partners: Iterable[Partner], file: IO[str]) -> None:
    """Writes the partners as a CSV table with a header; truth values are `true` and `false`, and empty if they are not known."""
    words = {True: "true", False: "false", None: ""}
    writer = csv.writer(file, lineterminator="\n")
    writer.writerow([column.name for column in fields(Partner)])
    for partner in partners:
        writer.writerow([words[value] if value is None or isinstance(value, bool) else value for value in astuple(partner)])


def to_frame(partners: Iterable[Partner]) -> pandas.DataFrame:
    """The partners as a DataFrame. It needs pandas."""
    import pandas

    return pandas.DataFrame(map(astuple, partners), columns=[column.name for column in fields(Partner)])
