"""Answers with what distinguishes a good partner from a chance one: sizes, shares, ties, and which columns are numbers."""

from __future__ import annotations

from collections.abc import Callable, Iterator, Sequence
from dataclasses import dataclass, fields
from typing import TYPE_CHECKING

from .errors import CountInvalid
from .replies import Answer, Match

if TYPE_CHECKING:
    import pandas

#: The most rows of an answer of the program.
MOST_ROWS = 10_000

#: The factor by which a question that was not answered completely is asked again with more rows.
_GROWTH = 8

#: The most rows that are asked for at once, so that many questions with many rows do not fill the memory.
_ROWS_AT_ONCE = 100_000


@dataclass(frozen=True)
class Found:
    """A column that shares `overlap` distinct values with the query.

    `size` is the number of its own distinct values; `share` is the overlap divided by the query's size, and `jaccard` by the number of distinct values
    that the two have together. `numbers` says whether all its values are numbers, and is `None` if that is not known.
    """

    overlap: int
    table: str
    place: int
    column: str
    size: int
    share: float
    jaccard: float
    numbers: bool | None


@dataclass(frozen=True)
class Findings:
    """The columns that share the most with a query of `values` distinct values.

    `ties` is the number of further columns that share as many values as the last row: they were cut by the names of table and column. `left_out` is the
    number of columns of numbers that would be rows, or tie with the last, had they not been left out. If `complete` is false, the 10,000 rows that
    an answer has at most did not show all of this: the rows are right as far as they go, more may follow, and there may be more ties.
    """

    values: int
    position: int
    rows: tuple[Found, ...]
    ties: int
    left_out: int
    complete: bool

    def __iter__(self) -> Iterator[Found]:
        return iter(self.rows)

    def __len__(self) -> int:
        return len(self.rows)

    def to_frame(self) -> pandas.DataFrame:
        """The rows as a DataFrame. It needs pandas."""
        import pandas

        names = [column.name for column in fields(Found)]
        return pandas.DataFrame([[getattr(row, name) for name in names] for row in self.rows], columns=names)


@dataclass(frozen=True)
class Cut:
    """An answer's first rows that are kept, and what was cut off after them."""

    values: int
    position: int
    matches: tuple[Match, ...]
    ties: int
    left_out: int
    complete: bool


def checked_k(k: int) -> int:
    """The number of rows that is asked for, if it is valid."""
    if not 1 <= k <= MOST_ROWS:
        raise CountInvalid(f"k is 1 to {MOST_ROWS:,}, not {k}")
    return k


def cuts(ask: Callable[[Sequence[int], int], Sequence[Answer]], count: int, k: int, keeps: Callable[[Match], bool]) -> list[Cut]:
    """For each of `count` questions its first k rows that are kept. `ask` answers some of them, by their numbers, with a given number of rows each.

    A question is asked with more rows until the first k that are kept, and how many tie with the last of them, are known, or there can be no more.
    """
    done: dict[int, Cut] = {}
    open_, rows = list(range(count)), min(k + 1, MOST_ROWS)
    while open_:
        step = max(1, _ROWS_AT_ONCE // rows)
        for start in range(0, len(open_), step):
            some = open_[start : start + step]
            done.update((number, _cut(answer, rows, k, keeps)) for number, answer in zip(some, ask(some, rows)))
        open_ = [number for number in open_ if not done[number].complete] if rows < MOST_ROWS else []
        rows = min(rows * _GROWTH, MOST_ROWS)
    return [done[number] for number in range(count)]


def _cut(answer: Answer, asked: int, k: int, keeps: Callable[[Match], bool]) -> Cut:
    """The first k rows that are kept of an answer that was asked for this many rows."""
    kept = [match for match in answer if keeps(match)]
    worst = kept[k - 1].overlap if len(kept) >= k else 1
    among = sum(match.overlap >= worst for match in answer)
    ties = sum(match.overlap == worst for match in kept[k:])
    left_out = among - sum(match.overlap >= worst for match in kept)
    complete = len(answer) < asked or answer.matches[-1].overlap < worst
    return Cut(answer.values, answer.position, tuple(kept[:k]), ties, left_out, complete)


def found(match: Match, values: int, size: int, numbers: bool | None) -> Found:
    """A row with its measures, for a query of this many distinct values."""
    together = values + size - match.overlap
    return Found(match.overlap, match.table, match.place, match.column, size, match.overlap / values, match.overlap / together, numbers)
