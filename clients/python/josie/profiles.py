"""What a table's own text says besides the program's sets: the names of its columns, which of them are numbers, and what looks wrong with it."""

from __future__ import annotations

import csv
import io
import os
import re
from collections.abc import Iterable, Iterator, Sequence
from dataclasses import dataclass
from itertools import islice
from typing import IO

#: The number of bytes at the beginning of a table that are read for the names of its columns.
HEADER_BYTES = 1 << 20

#: The number of records at the beginning of a table that are checked for a header that is data, and for another separator.
_SAMPLE = 1_000
_MOST_FIELD_BYTES = 67_108_864
_NUMBER = re.compile(r"[+-]?(\d+([.,]\d*)?|[.,]\d+)([eE][+-]?\d+)?", re.ASCII)
_MISSING = frozenset({"", "-", "?", "na", "n/a", "nan", "nil", "none", "null"})
_SEPARATORS = {";": "a semicolon", "\t": "a tab", "|": "a bar"}


@dataclass(frozen=True)
class Profile:
    """The names of a table's columns; for each whether all its values are numbers, `None` if the table was not read for that; and warnings as
    texts."""

    columns: tuple[str, ...]
    numbers: tuple[bool | None, ...]
    warnings: tuple[str, ...] = ()


def is_number(value: str) -> bool:
    """Whether a value is a decimal number: digits, possibly with a sign, a point or a comma, and an exponent.

    >>> [is_number(text) for text in ("5", "-0.5", "1e9", "3,14", "2024-01-01", "")]
    [True, True, True, True, False, False]
    """
    return _NUMBER.fullmatch(value) is not None


def header(head: bytes) -> Profile:
    """The names alone, from the beginning of a table's bytes. There are none if they cannot be read."""
    try:
        names = tuple(next(_records(io.StringIO(head.decode("utf-8-sig", "replace"), newline="")), ()))
    except csv.Error:
        names = ()
    return Profile(names, (None,) * len(names))


def profile(table: bytes | str | os.PathLike[str]) -> Profile | None:
    """What the bytes of a table, or of the file at a path, say; `None` if Python cannot read them as a table.

    A column is of numbers if it has a value that is a number, and each other value is one too, or a usual word for a missing value: `NA`, `N/A`, `NaN`,
    `nil`, `none`, `null`, `-` and `?`, in any case.

    >>> profile(b"city,height\\nOslo,23\\nLima,NA\\n")
    Profile(columns=('city', 'height'), numbers=(False, True), warnings=())
    >>> profile(b"5.1,setosa\\n4.9,setosa\\n").warnings
    ("the header looks like data: '5.1' is a number, 'setosa' is also a value of its column",)
    """
    limit = csv.field_size_limit(_MOST_FIELD_BYTES)
    try:
        with _opened(table) as text:
            return _profile(_records(text))
    except (csv.Error, IndexError, OSError):
        return None
    finally:
        csv.field_size_limit(limit)


def _opened(table: bytes | str | os.PathLike[str]) -> IO[str]:
    if isinstance(table, bytes):
        return io.TextIOWrapper(io.BytesIO(table), encoding="utf-8-sig", errors="replace", newline="")
    return open(table, encoding="utf-8-sig", errors="replace", newline="")


def _records(text: Iterable[str]) -> Iterator[list[str]]:
    """The records of a text; empty lines are skipped."""
    return (record for record in csv.reader(text) if record)


def _profile(records: Iterator[list[str]]) -> Profile:
    names = tuple(next(records, ()))
    sample = list(islice(records, _SAMPLE))
    may_be = {place: False for place in range(len(names))}
    _strike(may_be, sample)
    while may_be and (some := list(islice(records, _SAMPLE))):
        _strike(may_be, some)
    numbers = tuple(may_be.get(place, False) for place in range(len(names)))
    return Profile(names, numbers, tuple(_warnings(names, sample)))


def _strike(may_be: dict[int, bool], records: Sequence[list[str]]) -> None:
    """Removes the columns that have a value which is not a number. What is left says whether a number was seen."""
    for place in list(may_be):
        values = {record[place].strip() for record in records}
        others = {value for value in values if not is_number(value)}
        if any(value.casefold() not in _MISSING for value in others):
            del may_be[place]
        elif len(others) < len(values):
            may_be[place] = True


def _warnings(names: tuple[str, ...], sample: list[list[str]]) -> Iterator[str]:
    why = [f"{_cut(name)} {reason}" for place, name in enumerate(names) if (reason := _data_reason(name, (record[place] for record in sample)))]
    if why:
        more = f", and {len(why) - 3} more" if len(why) > 3 else ""
        yield f"the header looks like data: {', '.join(why[:3])}{more}"
    for separator, word in _SEPARATORS.items():
        if len(names) == 1 and _separates(separator, names[0], [record[0] for record in sample]):
            yield f"the table has one column, with {word} in its text, which may be its separator"


def _data_reason(name: str, values: Iterable[str]) -> str | None:
    own = name.strip().casefold()
    if is_number(own):
        return "is a number"
    if own and any(value.strip().casefold() == own for value in values):
        return "is also a value of its column"
    return None


def _separates(separator: str, name: str, values: list[str]) -> bool:
    """Whether a name has a separator, and half of the values or more have as many."""
    count = name.count(separator)
    return count > 0 and 2 * sum(value.count(separator) == count for value in values) >= len(values)


def _cut(name: str) -> str:
    return repr(name if len(name) <= 40 else name[:39] + "…")
