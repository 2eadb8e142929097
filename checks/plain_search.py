"""A plain model of a search: which posting lists it reads and which sets it probes, with the costs deciding between the two.

The parts of a layout are searched in turn, each in its own token order. Before every look the model works out again, from whole sets, what is known and what
the lists that were read say about each column. A row is a tuple that sorts in the order of rows: the negated overlap, the table's name, the column's name, the
place.
"""
from bisect import bisect_left
from collections import Counter
from typing import NamedTuple


class Column(NamedTuple):
    """A column that may be found, and where it meets the query: the numbers of the query's lists that hold it, and its positions in these, both rising."""
    names: tuple
    size: int
    lists: tuple
    positions: tuple


class Open(NamedTuple):
    """A column that can still be among the best, with the row that it has at its greatest possible overlap; the least of them goes first."""
    row: tuple
    column: Column
    count: int
    rest: int


def row(overlap, column):
    return (-overlap, *column.names)


def read_cost(length):
    return 64 + 4 * length


def probe_cost(rest):
    return 64 + rest


def columns_of(part):
    """All columns of a part, including those of dropped tables: the place of their table, title, place and keys."""
    return [(at, title, place, keys) for at in part.places for place, (title, keys) in enumerate(at.table[1], 1)]


def met(part, query, excepted):
    """The lengths of the query's lists in a part, in the order in which they are read, and the columns that may be found."""
    columns = columns_of(part)
    holders = Counter(key for _, _, _, keys in columns for key in keys)
    order = sorted(holders, key=lambda key: (holders[key], key.encode()))
    token = {key: number for number, key in enumerate(order)}
    asked = [key for key in order if key in query]
    found = []
    for at, title, place, keys in columns:
        if at.is_dropped or at.table[0] == excepted:
            continue
        in_order = sorted(keys, key=token.get)
        position = {key: number for number, key in enumerate(in_order)}
        lists = tuple(number for number, key in enumerate(asked) if key in position)
        names = (at.table[0].encode(), title.encode(), place)
        found.append(Column(names, len(keys), lists, tuple(position[asked[number]] for number in lists)))
    return [holders[key] for key in asked], found


def first_open(columns, probed, read, lists, worst):
    """The open column that goes first, or None if none is open. `read` of `lists` lists were read; `worst` is the last row that still counts."""
    found = []
    for column in columns:
        count = bisect_left(column.lists, read)
        if count == 0 or column in probed:
            continue
        rest = column.size - 1 - column.positions[count - 1]
        bound = row(count + min(lists - read, rest), column)
        if worst is None or bound < worst:
            found.append(Open(bound, column, count, rest))
    return min(found, default=None)


def is_probed(first, lengths, read, worst):
    """Whether the column that goes first is probed instead of reading the next list."""
    lists, bound = len(lengths), -first.row[0]
    gain = 0
    if worst is not None:
        threshold = -worst[0]
        estimate = max(first.count, min(bound, first.count * lists // read))
        gain = sum(read_cost(lengths[number]) for number in range(read, lists) if threshold <= lists - number < estimate)
    return probe_cost(first.rest) <= max(read_cost(lengths[read]), gain)


def work(parts, query, most, excepted):
    """How many lists a search for this many rows reads, and how many sets it probes."""
    known, reads, probes = [], 0, 0
    for part in parts:
        lengths, columns = met(part, query, excepted)
        lists, read, probed = len(lengths), 0, []
        while read < lists:
            worst = sorted(known)[most - 1] if len(known) >= most else None
            threshold = -worst[0] if worst else 1
            first = first_open(columns, probed, read, lists, worst)
            if first is None and lists - read < threshold:
                break
            if first is not None and is_probed(first, lengths, read, worst):
                probes += 1
                probed.append(first.column)
                known.append(row(len(first.column.lists), first.column))
            else:
                reads += 1
                read += 1
        else:
            known += [row(len(column.lists), column) for column in columns if column.lists and column not in probed]
    return reads, probes


def contain_work(parts, query, least):
    """How many lists a search for all columns that hold at least this many keys reads, and how many sets it probes."""
    reads, probes = 0, 0
    for part in parts:
        lengths, columns = met(part, query, None)
        read = max(0, len(lengths) - least + 1)
        reads += read
        for column in columns:
            count = bisect_left(column.lists, read)
            if count:
                bound = count + min(len(lengths) - read, column.size - 1 - column.positions[count - 1])
                probes += bound >= least and bound > count
    return reads, probes
