"""What the program replies."""

from __future__ import annotations

import re
from collections.abc import Iterator
from dataclasses import dataclass, field
from typing import TYPE_CHECKING, Any

from .errors import JosieError, refusal

if TYPE_CHECKING:
    import pandas


@dataclass(frozen=True)
class Loaded:
    """A table was loaded, with its number of columns and of distinct values over all of them, at this position of the history."""

    name: str
    columns: int
    members: int
    position: int


@dataclass(frozen=True)
class Dropped:
    """A table was dropped, at this position of the history."""

    name: str
    position: int


@dataclass(frozen=True)
class Replaced:
    """A table took the place of another, with its number of columns and of distinct values over all of them, at this position of the history."""

    name: str
    columns: int
    members: int
    position: int


@dataclass(frozen=True)
class Table:
    """A live table."""

    name: str
    columns: int
    members: int


@dataclass(frozen=True)
class Merged:
    """`parts` parts of the index became one part of `tables` tables, at this position of the history."""

    parts: int
    tables: int
    position: int


@dataclass(frozen=True)
class Match:
    """A column that shares `overlap` distinct values with the query. `place` counts from 1."""

    overlap: int
    table: str
    place: int
    column: str

    def order(self) -> tuple[int, bytes, bytes, int]:
        """What rows of an answer are sorted by: greater overlap, table name and column name by their bytes, place."""
        return -self.overlap, self.table.encode(), self.column.encode(), self.place


class Matches:
    """The rows of an answer to a query of `values` distinct values."""

    values: int
    matches: tuple[Match, ...]

    def __iter__(self) -> Iterator[Match]:
        return iter(self.matches)

    def __len__(self) -> int:
        return len(self.matches)

    def share(self, match: Match) -> float:
        """Which share of the query's values the column has, from 0 to 1."""
        return match.overlap / self.values if self.values else 0.0

    def to_frame(self) -> pandas.DataFrame:
        """The matches as a DataFrame, with their share of the query's values. It needs pandas."""
        import pandas

        rows = [(m.overlap, self.share(m), m.table, m.place, m.column) for m in self.matches]
        return pandas.DataFrame(rows, columns=["overlap", "share", "table", "place", "column"])


@dataclass(frozen=True)
class Answer(Matches):
    """The columns that share the most with a query of `values` distinct values, over the tables live at this position."""

    values: int
    position: int
    matches: tuple[Match, ...]


@dataclass(frozen=True)
class PastAnswer(Matches):
    """The columns that shared the most with a query of `values` distinct values, over the tables that were live at the position `asked`. The lake was at
    `position` when it answered."""

    values: int
    asked: int
    position: int
    matches: tuple[Match, ...]


@dataclass(frozen=True)
class FolderLoad:
    """The result of loading a folder: the tables that were loaded; the path of each by its name; the warnings of each that has some, and why each other file
    was refused, by its path."""

    loaded: list[Loaded] = field(default_factory=list)
    paths: dict[str, str] = field(default_factory=dict)
    warnings: dict[str, tuple[str, ...]] = field(default_factory=dict)
    refused: dict[str, JosieError] = field(default_factory=dict)


_ROW = re.compile(rb'  (\d+) (\S+) (\d+) "((?:[^"\\]|\\.)*)"', re.DOTALL)
_TABLE = re.compile(rb"  (\S+) columns (\d+) members (\d+)")
_ESCAPE = re.compile(rb'\\(x[0-9a-f]{2}|[nrt"\\])')
_ESCAPES = {b"n": b"\n", b"r": b"\r", b"t": b"\t", b'"': b'"', b"\\": b"\\"}


def _unquoted(name: bytes) -> str:
    def byte(found: re.Match[bytes]) -> bytes:
        mark = found.group(1)
        return bytes([int(mark[1:], 16)]) if mark.startswith(b"x") else _ESCAPES[mark]

    return (_ESCAPE.sub(byte, name) if b"\\" in name else name).decode("utf-8")


def further_lines(first: bytes) -> int:
    """How many lines follow the first line of a reply."""
    words = first.split(b" ")
    if words[1] in (b"answer", b"tables"):
        return int(words[2])
    return 0


def _match(line: bytes) -> Match:
    found = _ROW.fullmatch(line)
    if found is None:
        raise JosieError(f"josie wrote an unknown row: {line!r}")
    overlap, table, place, column = found.groups()
    return Match(int(overlap), table.decode(), int(place), _unquoted(column))


def _table(line: bytes) -> Table:
    found = _TABLE.fullmatch(line)
    if found is None:
        raise JosieError(f"josie wrote an unknown row: {line!r}")
    name, columns, members = found.groups()
    return Table(name.decode(), int(columns), int(members))


def parsed(first: bytes, further: list[bytes]) -> Any:
    """A reply, from its lines; a refusal is returned as its exception, not raised."""
    words = first.split(b" ")
    kind = words[1]
    if kind == b"loaded":
        return Loaded(words[2].decode(), int(words[4]), int(words[6]), int(words[8]))
    if kind == b"dropped":
        return Dropped(words[2].decode(), int(words[4]))
    if kind == b"replaced":
        return Replaced(words[2].decode(), int(words[4]), int(words[6]), int(words[8]))
    if kind == b"tables":
        return [_table(line) for line in further]
    if kind == b"answer" and words[5] == b"as":
        return PastAnswer(int(words[4]), int(words[7]), int(words[9]), tuple(map(_match, further)))
    if kind == b"answer":
        return Answer(int(words[4]), int(words[6]), tuple(map(_match, further)))
    if kind == b"merged":
        return Merged(int(words[2]), int(words[5]), int(words[8]))
    if kind == b"refused" or first.endswith(b" no memory"):
        return refusal(first.split(b" ", 1)[1].decode())
    raise JosieError(f"josie wrote an unknown reply: {first!r}")
