"""A lake of tables, and the searches over it."""

from __future__ import annotations

import os
import sys
from collections.abc import Iterable, Iterator, Sequence
from contextlib import AbstractContextManager, nullcontext
from dataclasses import dataclass
from types import TracebackType
from typing import Any, Protocol, TypeAlias

from .errors import (
    ColumnUnknown,
    CountInvalid,
    FolderEmpty,
    JosieError,
    NameInvalid,
    PositionUnknown,
    Refused,
    TableUnknown,
    TooLong,
    ValueInvalid,
)
from .findings import Findings, checked_k, cuts, found
from .names import checked, table_name
from .profiles import HEADER_BYTES, Profile, header, profile
from .program import BATCH_COMMANDS, BLOCK_BYTES, Program, block
from .replies import Answer, Dropped, FolderLoad, Loaded, Match, Merged, PastAnswer, Replaced, Table

Path: TypeAlias = "str | os.PathLike[str]"

#: The most files and bytes of a batch in which a folder is loaded, few enough that a bar can show the progress.
_FOLDER_COMMANDS = 64
_FOLDER_BYTES = 33_554_432


class Lake:
    """A lake of tables, held by one josie that runs until the `with` block ends, or until `close`.

    `program` is the path of the program; without it the program is the one that the variable JOSIE names, or that was built in this repository, or
    that is on the path. If it cannot be started, or has ended, a call raises `LakeEnded`.

    With `profiles`, each table that is loaded is read by Python too, for the marks on its columns and for warnings (`profile`); otherwise only its header
    is read, which makes long loads shorter.

    With `compatibility`, values are compared by Unicode's compatibility caseless matching: full-width letters, ligatures, circled digits and superscripts are the
    same as their plain forms.

    >>> with Lake() as lake:
    ...     _ = lake.load("stations", b"id,city\\n1,Oslo\\n2,Lima\\n")
    ...     _ = lake.load("rivers", b"river,mouth\\nTiber,Rome\\nRimac,LIMA\\n")
    ...     lake.like("stations", "city").matches
    (Match(overlap=1, table='rivers', place=2, column='mouth'),)
    """

    def __init__(self, program: str | None = None, *, profiles: bool = True, compatibility: bool = False) -> None:
        self._program = Program(program, ["--profile", "2"] if compatibility else [])
        self._reads_tables = profiles
        self._profiles: dict[str, Profile | None] = {}
        self._sizes: dict[tuple[str, int], int] = {}

    def __enter__(self) -> Lake:
        return self

    def __exit__(self, kind: type[BaseException] | None, error: BaseException | None, trace: TracebackType | None) -> None:
        self.close()

    def close(self) -> None:
        """Ends the program. A lake that is closed answers nothing more."""
        self._program.close()

    def load(self, name: str, table: Any) -> Loaded:
        """Loads a table: the path of a CSV file, the bytes of one, or a DataFrame, whose index is left out.

        Raises `NameInvalid` or `TooLong` before anything is sent, and `NameTaken`, `TableRefused`, `FileRefused` or `LakeFull`, after
        which the lake is as before.
        """
        source = _source(name, table)
        loaded: Loaded = self._ask(source.command)
        self._remember(loaded, source)
        return loaded

    def load_folder(self, folder: Path, suffix: str = ".csv") -> FolderLoad:
        """Loads each file of the folder whose name ends with the suffix, in any case, in the order of the names, as the table that `table_name` gives.

        A file that is not a table is listed with why it was refused, and the others are loaded. On a terminal a bar shows the progress,
        if tqdm is installed. Raises `FolderEmpty`.
        """
        paths = folder_files(folder, suffix)
        done = FolderLoad()
        with progress(len(paths)) as bar:
            for batch in _batches(paths, done):
                for (path, source), reply in zip(batch, self._program.ask([source.command for _, source in batch])):
                    if isinstance(reply, Refused):
                        done.refused[path] = reply
                        continue
                    done.loaded.append(reply)
                    done.paths[reply.name] = path
                    warnings = self._remember(reply, source)
                    if warnings:
                        done.warnings[path] = warnings
                bar.update(len(batch))
        return done

    def drop(self, name: str) -> Dropped:
        """Drops a live table, or raises `TableUnknown`."""
        dropped: Dropped = self._ask(b"drop " + checked(name) + b"\n")
        self._forget(name)
        return dropped

    def replace(self, name: str, table: Any) -> Replaced:
        """Puts a table in the place of the live one of this name, as one change: no search finds both or neither.

        The table is given as for `load`. Raises `NameInvalid` or `TooLong` before anything is sent, and `TableUnknown`, `TableRefused` or
        `LakeFull`, after which the lake is as before.
        """
        data = table_bytes(table)
        source = _Source(b"replace " + checked(name) + b"\n" + block(data), data, len(data))
        replaced: Replaced = self._ask(source.command)
        self._forget(name)
        self._remember(replaced, source)
        return replaced

    def tables(self) -> list[Table]:
        """The live tables, in the order in which they were loaded or put in the place of another."""
        tables: list[Table] = self._ask(b"tables\n")
        return tables

    def columns(self, name: str) -> tuple[str, ...]:
        """The names of the columns of a live table, in their order.

        Raises `TableUnknown`, or `ColumnUnknown` if Python could not read the table's header as the program did.
        """
        return self.profile(name).columns

    def profile(self, name: str) -> Profile:
        """The names of a table's columns, which of them are numbers, and warnings of what looks wrong with the table. Raises as `columns` does."""
        if name not in self._profiles:
            raise TableUnknown(f"no table named {name} is live")
        known = self._profiles[name]
        if known is None:
            raise ColumnUnknown(f"the names of the columns of {name} are not known")
        return known

    def search(self, values: Iterable[str], k: int = 10) -> Answer:
        """The k columns (1 to 10,000) that share the most distinct values with these.

        Raises `CountInvalid`, `ValueInvalid` or `TooLong` before anything is sent.
        """
        answer: Answer = self._ask(_search_command(_query_block(values), k))
        return answer

    def contain(self, values: Iterable[str], part: int = 1, whole: int = 1) -> Answer:
        """All columns that hold at least `part` of `whole` parts of these distinct values, and one value at least: with 9 and 10, nine of ten.

        Raises `CountInvalid` if `part` is not 1 to `whole`, or `whole` not 1 to 10,000, and `ValueInvalid` or `TooLong`, before anything is sent.
        """
        if not 1 <= part <= whole <= 10_000:
            raise CountInvalid(f"{part} of {whole} is no fraction of 1 to 10,000 parts")
        answer: Answer = self._ask(b"contain %d %d\n" % (part, whole) + _query_block(values))
        return answer

    def asof(self, position: int, values: Iterable[str], k: int = 10) -> PastAnswer:
        """The k columns (1 to 10,000) that shared the most distinct values with these at an earlier position of the lake's history: that of a reply, or 0, at
        which the lake is empty. The first such question takes longer than a search, since the program builds an index of the tables of the past.

        Raises `CountInvalid`, `ValueInvalid` or `TooLong` before anything is sent, and `PositionUnknown`, with the last position there is.

        >>> with Lake() as lake:
        ...     loaded = lake.load("stations", b"id,city\\n1,Oslo\\n2,Lima\\n")
        ...     _ = lake.drop("stations")
        ...     lake.asof(loaded.position, ["oslo"]).matches
        (Match(overlap=1, table='stations', place=2, column='city'),)
        """
        if not 0 <= position <= 4_294_967_295:
            raise PositionUnknown(f"a position is 0 to 4,294,967,295, not {position}")
        answer: PastAnswer = self._ask(b"asof %d %d\n" % (position, checked_k(k)) + _query_block(values))
        return answer

    def like(self, table: str, column: int | str, k: int = 10) -> Answer:
        """The k columns of other tables that share the most distinct values with this one, which is given by its place, from 1, or by its name.

        Raises `CountInvalid`, `TableUnknown` or `ColumnUnknown`.
        """
        answer: Answer = self._ask(_like_command(table, self._place(table, column), k))
        return answer

    def likes(self, columns: Sequence[tuple[str, int]], k: int = 10) -> list[Answer]:
        """The answers of `like` for many columns, each the name of a table and a place. The first that is refused is raised."""
        commands = [_like_command(table, place, k) for table, place in columns]
        replies: list[Any] = []
        for first in range(0, len(commands), BATCH_COMMANDS):
            replies += self._program.ask(commands[first : first + BATCH_COMMANDS])
        return [_raised(reply) for reply in replies]

    def sizes(self, columns: Iterable[tuple[str, int]]) -> list[int]:
        """The numbers of distinct values of columns, each the name of a table and a place, as the program counts them."""
        columns = list(columns)
        unknown = [column for column in dict.fromkeys(columns) if column not in self._sizes]
        self._sizes.update((column, answer.values) for column, answer in zip(unknown, self.likes(unknown, k=1)))
        return [self._sizes[column] for column in columns]

    def find(self, values: Iterable[str], k: int = 10, *, numbers: bool = True) -> Findings:
        """Like `search`, and for each row the column's own size, the share of the query, Jaccard's measure, and whether it is a column of numbers; and
        how many further columns tie with the last row. Without `numbers` the columns of numbers are left out.

        >>> with Lake() as lake:
        ...     _ = lake.load("stations", b"id,city\\n1,Oslo\\n2,Lima\\n3,Rome\\n")
        ...     found = lake.find(["lima", "rome"])
        ...     [(row.column, row.overlap, row.size, row.share, round(row.jaccard, 2)) for row in found], found.ties
        ([('city', 2, 3, 1.0, 0.67)], 0)
        """
        lines = _query_block(values)
        return self._findings(lambda _, rows: [self._ask(_search_command(lines, rows))], 1, k, numbers)[0]

    def find_like(self, table: str, column: int | str, k: int = 10, *, numbers: bool = True) -> Findings:
        """Like `like`, with what `find` adds."""
        return self.find_likes([(table, self._place(table, column))], k, numbers=numbers)[0]

    def find_likes(self, columns: Sequence[tuple[str, int]], k: int = 10, *, numbers: bool = True) -> list[Findings]:
        """What `find_like` gives for many columns, each the name of a table and a place. The first that is refused is raised."""
        return self._findings(lambda some, rows: self.likes([columns[number] for number in some], rows), len(columns), k, numbers)

    def merge(self, whole: bool = True) -> Merged | None:
        """Merges the whole index into one part, which makes searches faster and changes no answer; or, if `whole` is false, a step of that.

        `None` if there is nothing to merge.
        """
        (reply,) = self._program.ask([b"merge all\n" if whole else b"merge\n"])
        if isinstance(reply, Refused) and reply.reply.startswith("refused nothing to merge"):
            return None
        merged: Merged = _raised(reply)
        return merged

    def is_numbers(self, table: str, place: int) -> bool | None:
        """Whether all values of a column are numbers; `None` if that is not known."""
        known = self._profiles.get(table)
        return known.numbers[place - 1] if known else None

    def _findings(self, ask: Any, count: int, k: int, numbers: bool) -> list[Findings]:
        def keeps(match: Match) -> bool:
            return numbers or not self.is_numbers(match.table, match.place)

        all_cut = cuts(ask, count, checked_k(k), keeps)
        sizes = iter(self.sizes([(match.table, match.place) for cut in all_cut for match in cut.matches]))
        return [
            Findings(
                cut.values,
                cut.position,
                tuple(found(match, cut.values, next(sizes), self.is_numbers(match.table, match.place)) for match in cut.matches),
                cut.ties,
                cut.left_out,
                cut.complete,
            )
            for cut in all_cut
        ]

    def _ask(self, command: bytes) -> Any:
        (reply,) = self._program.ask([command])
        return _raised(reply)

    def _remember(self, loaded: Loaded | Replaced, source: _Source) -> tuple[str, ...]:
        """Keeps what Python reads from a table, if it finds as many columns as the program did, and gives the warnings."""
        known = profile(source.table) if self._reads_tables else None
        known = known or header(_head(source.table))
        is_same = len(known.columns) == loaded.columns
        self._profiles[loaded.name] = known if is_same else None
        return known.warnings if is_same else ()

    def _forget(self, name: str) -> None:
        del self._profiles[name]
        self._sizes = {column: size for column, size in self._sizes.items() if column[0] != name}

    def _place(self, table: str, column: int | str) -> int:
        if isinstance(column, int):
            return column
        places = [place for place, name in enumerate(self.columns(table), 1) if name == column]
        if len(places) != 1:
            raise ColumnUnknown(f"{len(places)} columns of {table} are named {column!r}")
        return places[0]


def _raised(reply: Any) -> Any:
    if isinstance(reply, Refused):
        raise reply
    return reply


@dataclass(frozen=True)
class _Source:
    """A table that is to be loaded: the command, the table's bytes or its path, and how many bytes it has."""

    command: bytes
    table: bytes | str
    size: int


def _source(name: str, table: Any) -> _Source:
    front = checked(name)
    if isinstance(table, (str, os.PathLike)):
        path = os.path.abspath(os.fspath(table))
        if _fits_a_line(path):
            return _Source(b"loadfile " + front + b" " + os.fsencode(path) + b"\n", path, _size(path))
    data = table_bytes(table)
    return _Source(b"load " + front + b"\n" + block(data), data, len(data))


def table_bytes(table: Any) -> bytes:
    """The bytes of a table that is given as a path, as bytes or as a DataFrame; of a file at most one byte more than it may have."""
    if isinstance(table, (str, os.PathLike)):
        with open(table, "rb") as file:
            return file.read(BLOCK_BYTES + 1)
    if isinstance(table, (bytes, bytearray)):
        return bytes(table)
    if hasattr(table, "to_csv"):
        return bytes(table.to_csv(index=False).encode("utf-8"))
    raise TypeError(f"a table is a path, bytes or a DataFrame, not {type(table).__name__}")


def _search_command(lines: bytes, k: int) -> bytes:
    return b"search %d\n" % checked_k(k) + lines


def _like_command(table: str, place: int, k: int) -> bytes:
    if not 1 <= place <= 4_294_967_295:
        raise ColumnUnknown(f"a place is 1 to 4,294,967,295, not {place}")
    return b"like %d " % checked_k(k) + checked(table) + b" %d\n" % place


def _query_block(values: Iterable[str]) -> bytes:
    return block(b"".join(map(_value_line, values)))


def _value_line(value: str) -> bytes:
    try:
        line = value.encode("utf-8")
    except UnicodeEncodeError as error:
        raise ValueInvalid(f"a value that is no text cannot be asked for: {value!r}") from error
    if b"\n" in line:
        raise ValueInvalid(f"a value with a line feed cannot be asked for: {value!r}")
    return line + b"\n"


def _fits_a_line(path: str) -> bool:
    """Whether a path can be written in a line of a script: it is UTF-8 and not empty, has no line feed, and no space or carriage return at its end."""
    try:
        encoded = path.encode("utf-8")
    except UnicodeEncodeError:
        return False
    return len(encoded) <= 3_000 and b"\n" not in encoded and not encoded.endswith((b" ", b"\r"))


def _head(table: bytes | str) -> bytes:
    """The beginning of a table's bytes or of a file, or nothing if the file can no longer be read."""
    if isinstance(table, bytes):
        return table[:HEADER_BYTES]
    try:
        with open(table, "rb") as file:
            return file.read(HEADER_BYTES)
    except OSError:
        return b""


def _size(path: str) -> int:
    try:
        return os.path.getsize(path)
    except OSError:
        return 0


def folder_files(folder: Path, suffix: str) -> list[str]:
    """The sorted paths of the folder's files whose names end with the suffix, in any case. Raises `FolderEmpty` if there is none."""
    paths = sorted(entry.path for entry in os.scandir(folder) if entry.is_file() and entry.name.lower().endswith(suffix.lower()))
    if not paths:
        raise FolderEmpty(f"{os.fspath(folder)} has no file whose name ends in {suffix}")
    return paths


def _batches(paths: Iterable[str], done: FolderLoad) -> Iterator[list[tuple[str, _Source]]]:
    """The files as they are loaded together; those for which no command can be written are refused."""
    batch: list[tuple[str, _Source]] = []
    size = 0
    for path in paths:
        try:
            source = _source(table_name(path), path)
        except (NameInvalid, TooLong, OSError) as error:
            done.refused[path] = error if isinstance(error, JosieError) else JosieError(str(error))
            continue
        if batch and (len(batch) == _FOLDER_COMMANDS or size + source.size > _FOLDER_BYTES):
            yield batch
            batch, size = [], 0
        batch.append((path, source))
        size += source.size
    if batch:
        yield batch


class Bar(Protocol):
    """What shows the progress of something."""

    def update(self, count: int) -> object: ...


class _NoBar:
    def update(self, count: int) -> None:
        pass


def progress(total: int, unit: str = "file") -> AbstractContextManager[Bar]:
    """A bar for this many files, or other things, on a terminal, if tqdm is installed; otherwise something that shows nothing."""
    if sys.stderr.isatty():
        try:
            from tqdm import tqdm
        except ImportError:
            return nullcontext(_NoBar())
        bar: AbstractContextManager[Bar] = tqdm(total=total, unit=unit, leave=False)
        return bar
    return nullcontext(_NoBar())
