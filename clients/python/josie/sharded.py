"""A lake over many machines: its tables are spread over shards, each the lake of one josie in a worker of Dask."""

from __future__ import annotations

import heapq
from collections.abc import Callable, Iterable, Iterator, Sequence
from dataclasses import dataclass
from hashlib import blake2b
from itertools import islice
from types import TracebackType
from typing import TYPE_CHECKING, Any

from .errors import JosieError, LakeEnded, NameInvalid, ShardFailed, TooLong
from .findings import checked_k
from .lake import Lake, Path, folder_files, progress, table_bytes
from .names import checked, table_name
from .program import BLOCK_BYTES
from .replies import Answer, Dropped, FolderLoad, Loaded, Match, Matches, Merged, Replaced, Table

if TYPE_CHECKING:
    from distributed import Client

#: The most tables of a folder, and bytes, that are sent to a shard at a time.
_SENT_TABLES = 64
_SENT_BYTES = 33_554_432

#: The seconds between two checks whether a shard that has not answered yet is still there.
_PATIENCE = 1.0


def shard_of(name: str, shards: int) -> int:
    """The shard of a table, from 0: the first eight bytes of BLAKE2b of its name, as a number, modulo the number of shards. It is the same on each
    machine and in each version of Python.

    >>> [shard_of(name, 4) for name in ("stations", "rivers", "museums", "airports")]
    [0, 0, 1, 1]
    """
    return int.from_bytes(blake2b(checked(name), digest_size=8).digest(), "big") % shards


def merged(answers: Sequence[Answer], k: int) -> tuple[Match, ...]:
    """The first k rows of some answers, merged in answer order. If each was asked for k rows, these are the rows of one lake that holds all tables:
    the crate `shard_laws` has the proof."""
    return tuple(islice(heapq.merge(*answers, key=Match.order), k))


@dataclass(frozen=True)
class ShardedAnswer(Matches):
    """The columns of all shards that share the most with a query of `values` distinct values, and the position of each shard's history."""

    values: int
    positions: tuple[int, ...]
    matches: tuple[Match, ...]


class Shard:
    """One shard, in a worker: an actor that holds a lake."""

    def __init__(self, program: str | None) -> None:
        self._lake = Lake(program, profiles=False)

    def load(self, name: str, table: bytes) -> Loaded:
        return self._lake.load(name, table)

    def load_all(self, tables: Sequence[tuple[str, bytes]]) -> list[Loaded | JosieError]:
        """Loads tables. A refusal takes the place of its table's reply."""
        return [self._loaded(name, table) for name, table in tables]

    def drop(self, name: str) -> Dropped:
        return self._lake.drop(name)

    def replace(self, name: str, table: bytes) -> Replaced:
        return self._lake.replace(name, table)

    def tables(self) -> list[Table]:
        return self._lake.tables()

    def search(self, values: Sequence[str], k: int) -> Answer:
        return self._lake.search(values, k)

    def merge(self) -> Merged | None:
        return self._lake.merge()

    def close(self) -> None:
        self._lake.close()

    def _loaded(self, name: str, table: bytes) -> Loaded | JosieError:
        try:
            return self._lake.load(name, table)
        except LakeEnded:
            raise
        except JosieError as refused:
            return refused


class ShardedLake:
    """A lake whose tables are spread over shards by their names (`shard_of`), one josie each, in the workers of a Dask cluster.

    `client` is the cluster's; there are as many shards as workers, or `shards`, which are dealt out to the workers in turn. `program` is the path of the
    program at the workers; without it each worker finds it as `Lake` does. The package has to be installed at the workers.

    An answer is that of one lake which holds all tables. If a shard is gone, or its josie has ended, a call raises `ShardFailed`, and so does
    each one after it: its tables are lost, and the other shards give no answers.

        with Client(cluster) as client, ShardedLake(client) as lake:
            lake.load_folder("data")
            lake.search(["Oslo", "Rome"], k=10)
    """

    def __init__(self, client: Client, shards: int | None = None, program: str | None = None) -> None:
        self._client: Any = client
        workers = sorted(self._client.nthreads())
        count = len(workers) if shards is None else shards
        if not workers or count < 1:
            raise JosieError(f"there are {len(workers)} workers, and {count} shards are asked for")
        self._failed: ShardFailed | None = None
        self._is_closed = False
        self._workers = [workers[number % len(workers)] for number in range(count)]
        self._futures = [self._client.submit(Shard, program, actor=True, workers=[worker], pure=False) for worker in self._workers]
        self._shards: list[Any] = []
        self._shards = self._wait([(number, future) for number, future in enumerate(self._futures)])

    def __enter__(self) -> ShardedLake:
        return self

    def __exit__(self, kind: type[BaseException] | None, error: BaseException | None, trace: TracebackType | None) -> None:
        self.close()

    def __len__(self) -> int:
        """The number of shards."""
        return len(self._workers)

    def close(self) -> None:
        """Ends the shards. A lake that is closed answers nothing more."""
        if self._is_closed:
            return
        try:
            if self._failed is None:
                self._wait_for_all(lambda shard: shard.close())
        except ShardFailed:
            pass  # what is gone needs no end
        finally:
            self._is_closed = True
            self._shards = []
            for future in self._futures:
                future.release()

    def load(self, name: str, table: Any) -> Loaded:
        """Loads a table, as `Lake.load` does: its bytes are sent to its shard. The position is that of the shard's history."""
        data = _sendable(table_bytes(table))
        loaded: Loaded = self._one(name, lambda shard: shard.load(name, data))
        return loaded

    def load_folder(self, folder: Path, suffix: str = ".csv") -> FolderLoad:
        """Loads the files of a folder, as `Lake.load_folder` does. There are no warnings: only the program reads the tables."""
        paths = folder_files(folder, suffix)
        done = FolderLoad()
        under_way: dict[int, tuple[list[str], Any]] = {}
        with progress(len(paths)) as bar:
            for number, tables in self._parcels(paths, done):
                self._collect(under_way, number, done)
                under_way[number] = ([path for path, _, _ in tables], self._send(number, [(name, data) for _, name, data in tables]))
                bar.update(len(tables))
            for number in list(under_way):
                self._collect(under_way, number, done)
        done.loaded.sort(key=lambda loaded: done.paths[loaded.name])
        return done

    def drop(self, name: str) -> Dropped:
        """Drops a live table, or raises `TableUnknown`."""
        dropped: Dropped = self._one(name, lambda shard: shard.drop(name))
        return dropped

    def replace(self, name: str, table: Any) -> Replaced:
        """Puts a table in the place of the live one of this name, as `Lake.replace` does: its bytes are sent to its shard."""
        data = _sendable(table_bytes(table))
        replaced: Replaced = self._one(name, lambda shard: shard.replace(name, data))
        return replaced

    def tables(self) -> list[Table]:
        """The live tables of all shards, in the order of their names' bytes."""
        return sorted((table for tables in self._wait_for_all(lambda shard: shard.tables()) for table in tables), key=lambda table: table.name)

    def search(self, values: Iterable[str], k: int = 10) -> ShardedAnswer:
        """The k columns of all shards that share the most distinct values with these. Raises as `Lake.search` does, or `ShardFailed`."""
        checked_k(k)
        asked = list(values)
        answers: list[Answer] = self._wait_for_all(lambda shard: shard.search(asked, k))
        sizes = {answer.values for answer in answers}
        if len(sizes) != 1:
            raise JosieError(f"the shards count the values differently: {sorted(sizes)}; their programs differ")
        return ShardedAnswer(sizes.pop(), tuple(answer.position for answer in answers), merged(answers, k))

    def merge(self) -> list[Merged | None]:
        """Merges the index of each shard into one part, which makes searches faster and changes no answer; `None` if there is nothing to merge."""
        replies: list[Merged | None] = self._wait_for_all(lambda shard: shard.merge())
        return replies

    def _one(self, name: str, call: Callable[[Any], Any]) -> Any:
        """What the shard of a table gives."""
        number = shard_of(name, len(self))
        return self._wait([(number, self._called(number, call))])[0]

    def _wait_for_all(self, call: Callable[[Any], Any]) -> list[Any]:
        """What each shard gives, or none of it."""
        return self._wait([(number, self._called(number, call)) for number in range(len(self))])

    def _called(self, number: int, call: Callable[[Any], Any]) -> Any:
        if self._is_closed:
            raise LakeEnded(None, "the lake was closed")
        if self._failed is not None:
            raise self._failed
        try:
            return call(self._shards[number])
        except ValueError as lost:
            raise self._fail(number, lost) from lost

    def _send(self, number: int, tables: list[tuple[str, bytes]]) -> Any:
        return self._called(number, lambda shard: shard.load_all(tables))

    def _wait(self, calls: Sequence[tuple[int, Any]]) -> list[Any]:
        """What calls give, each of the shard with this number. If one is refused, that is raised once all have returned."""
        outcomes = [self._outcome(number, future) for number, future in calls]
        for outcome in outcomes:
            if isinstance(outcome, JosieError):
                raise outcome
        return outcomes

    def _outcome(self, number: int, future: Any) -> Any:
        """What a call gives, or the refusal that it raised."""
        while True:
            try:
                return future.result(timeout=_PATIENCE)
            except TimeoutError as late:
                if future.done():
                    raise self._fail(number, late) from late
                if not self._is_there(number):
                    raise self._fail(number, None) from None
            except LakeEnded as ended:
                raise self._fail(number, ended) from ended
            except JosieError as refused:
                refused.add_note(f"shard {number} at {self._workers[number]}")
                return refused
            except Exception as lost:
                raise self._fail(number, lost) from lost

    def _is_there(self, number: int) -> bool:
        """Whether the worker of a shard is one of the cluster's, and has not lost the shard."""
        try:
            return self._workers[number] in self._client.nthreads() and self._futures[number].status in ("pending", "finished")
        except Exception:
            return False

    def _fail(self, number: int, why: BaseException | None) -> ShardFailed:
        self._failed = ShardFailed(number, self._workers[number], str(why) if why else "its worker is gone")
        return self._failed

    def _collect(self, under_way: dict[int, tuple[list[str], Any]], number: int, done: FolderLoad) -> None:
        """Waits for what was sent to a shard, if anything was, and enters the results."""
        if number not in under_way:
            return
        paths, future = under_way.pop(number)
        (replies,) = self._wait([(number, future)])
        for path, reply in zip(paths, replies):
            if isinstance(reply, JosieError):
                done.refused[path] = reply
            else:
                done.loaded.append(reply)
                done.paths[reply.name] = path

    def _parcels(self, paths: Iterable[str], done: FolderLoad) -> Iterator[tuple[int, list[tuple[str, str, bytes]]]]:
        """The files with their tables' names and bytes, in parcels, each for one shard; those that cannot be sent are refused."""
        parcels: dict[int, list[tuple[str, str, bytes]]] = {}
        sizes = dict.fromkeys(range(len(self)), 0)
        for path in paths:
            try:
                name = table_name(path)
                number, data = shard_of(name, len(self)), _sendable(table_bytes(path))
            except (NameInvalid, TooLong, OSError) as error:
                done.refused[path] = error if isinstance(error, JosieError) else JosieError(str(error))
                continue
            parcel = parcels.setdefault(number, [])
            parcel.append((path, name, data))
            sizes[number] += len(data)
            if len(parcel) == _SENT_TABLES or sizes[number] >= _SENT_BYTES:
                yield number, parcels.pop(number)
                sizes[number] = 0
        yield from parcels.items()


def _sendable(data: bytes) -> bytes:
    if len(data) > BLOCK_BYTES:
        raise TooLong(f"{len(data):,} bytes or more, of at most {BLOCK_BYTES:,}")
    return data
