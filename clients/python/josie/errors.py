"""What can go wrong. Each refusal of the program is an exception of its own class, with its cause as attributes."""

from __future__ import annotations

from typing import Any


def _again(kind: type[BaseException], args: tuple[Any, ...], fields: dict[str, Any]) -> BaseException:
    error = kind.__new__(kind, *args)
    error.args = args
    error.__dict__.update(fields)
    return error


class JosieError(Exception):
    """The base class of what this package raises. It can be pickled, so it passes whole between processes."""

    def __reduce__(self) -> tuple[Any, ...]:
        return _again, (type(self), self.args, self.__dict__)


class NameInvalid(JosieError, ValueError):
    """A table's name is invalid: it has to be 1 to 255 bytes, each a printable ASCII character other than the space. Nothing was sent."""


class TooLong(JosieError, ValueError):
    """A table or a query that is sent has more than 67,108,864 bytes. Nothing was sent."""


class ValueInvalid(JosieError, ValueError):
    """A value cannot be asked for: it has a line feed, or is no text. Nothing was sent."""


class CountInvalid(JosieError, ValueError):
    """The number of rows that is asked for, `k`, is not 1 to 10,000. Nothing was sent."""


class FolderEmpty(JosieError):
    """The folder has no file with the suffix that was asked for."""


class LakeEnded(JosieError):
    """The program is not running any more, or never ran. `status` is its exit code, if there is one."""

    MEANINGS = {
        0: "it ended",
        1: "a line of the script was invalid",
        2: "its command line was invalid",
        3: "reading failed",
        4: "writing failed",
        5: "it ran out of memory",
    }

    def __init__(self, status: int | None, told: str = "") -> None:
        self.status = status
        if status is None:
            meaning, more = told, ""
        else:
            other = f"signal {-status} ended it" if status < 0 else f"it ended with exit code {status}"
            meaning, more = self.MEANINGS.get(status, other), f" ({told})" if told else ""
        super().__init__(f"josie is not running: {meaning}{more}")


class Refused(JosieError):
    """A command was refused, and changed nothing. `reply` is the program's own line, without the command's number, or a text of this package;
    the text of the exception says the reason in words."""

    def __init__(self, reply: str, words: str | None = None) -> None:
        self.reply = reply
        super().__init__(words or reply)


class OutOfMemory(Refused):
    """The program ran out of memory for the command."""


class NameTaken(Refused):
    """A table of this name is live."""


class TableUnknown(Refused):
    """No table of this name is live."""


class ColumnUnknown(Refused):
    """The table has no column at this place, or of this name, or several of this name."""


class PositionUnknown(Refused):
    """The position is not one of the lake's history, of which the last is `last`; `last` is `None` if nothing was sent, as no history is so long."""

    def __init__(self, reply: str, words: str | None = None, last: int | None = None) -> None:
        self.last = last
        super().__init__(reply, words)


class LakeFull(Refused):
    """The lake would exceed its limit of tables, updates, members or key bytes: it has `count` of `what`, and `more` were to be added."""

    def __init__(self, reply: str, words: str | None, what: str, count: int, more: int) -> None:
        self.what, self.count, self.more = what, count, more
        super().__init__(reply, words)


class TableRefused(Refused):
    """The bytes are not a table: no header, too many columns or values, a record of another length, or not UTF-8.

    `record` and `field` count from 1, the header being record 1; they are `None` if the refusal names none.
    """

    def __init__(self, reply: str, words: str | None = None, record: int | None = None, field: int | None = None) -> None:
        self.record, self.field = record, field
        super().__init__(reply, words)


class FileRefused(Refused):
    """The file is missing, cannot be read, or has more than 67,108,864 bytes."""


class QueryRefused(Refused):
    """The values are not a query: not UTF-8, or more than 4,194,304 of them."""


class ShardFailed(JosieError):
    """A shard of a `ShardedLake` gave no answer, so the lake gives none: `shard` is its number, from 0, and `worker` the address of its worker. What went
    wrong there is the cause."""

    def __init__(self, shard: int, worker: str, why: str) -> None:
        self.shard, self.worker = shard, worker
        super().__init__(f"shard {shard} at {worker}: {why}")


_FILES = {
    "failed": "the file cannot be read",
    "missing": "there is no such file",
    "longer": "the file has more than 67,108,864 bytes",
}
_FULL = {"tables": "live tables", "updates": "loads, drops and replaces", "members": "distinct values", "key-bytes": "bytes of distinct values"}


def refusal(reply: str) -> Refused:
    """The exception of a reply, which is given without its command's number: `refused ...` or `no memory`.

    >>> print(refusal("refused csv record 3 want 2 got 1"))
    record 3 has 1 field, and the header has 2
    """
    if reply == "no memory":
        return OutOfMemory(reply, "the program ran out of memory for this command")
    match reply.split(" ")[1:]:
        case ["repeated", name, *_]:
            return NameTaken(reply, f"a table named {name} is live")
        case ["unknown", name, *_]:
            return TableUnknown(reply, f"no table named {name} is live")
        case ["column", name, place, *_]:
            return ColumnUnknown(reply, f"the table {name} has no column {place}")
        case ["later", position, "at", last]:
            words = f"the lake has no position {int(position):,} yet; its history ends at {int(last):,}"
            return PositionUnknown(reply, words, int(last))
        case ["full", what, count, "more", more, *_]:
            words = f"the lake has {int(count):,} {_FULL.get(what, what)}, and {int(more):,} more are too many"
            return LakeFull(reply, words, what, int(count), int(more))
        case ["csv", *words]:
            return _table_refused(reply, words)
        case ["values", "column", place]:
            return TableRefused(reply, f"column {place} has more than 4,194,304 distinct values")
        case ["file", why]:
            return FileRefused(reply, _FILES.get(why))
        case ["query", "line", line, *_]:
            return QueryRefused(reply, f"value {line} is not UTF-8")
        case ["query", "values"]:
            return QueryRefused(reply, "there are more than 4,194,304 distinct values")
    return Refused(reply)


def _table_refused(reply: str, words: list[str]) -> TableRefused:
    """The exception of a reply `refused csv ..`, from the words after `csv`."""
    match words:
        case ["no-header"]:
            return TableRefused(reply, "it has no header")
        case ["columns", count]:
            return TableRefused(reply, f"its header has {int(count):,} columns, and at most 1,024 may be")
        case ["record", record, "want", want, "got", got]:
            fields = "field" if got == "1" else "fields"
            return TableRefused(reply, f"record {record} has {got} {fields}, and the header has {want}", int(record))
        case ["record", record, "field", field, *_]:
            return TableRefused(reply, f"field {field} of record {record} is not UTF-8; the file may have another encoding", int(record), int(field))
    return TableRefused(reply)
