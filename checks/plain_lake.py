"""A plain model of a lake: the reply to each command at a version, and the version after it.

A version is the position of the journal, the live tables in the order in which they were added by a load or a replace, the parts of the layout, and the version
one entry earlier. It never changes, so a pin is the version itself. A table is a name and its columns, and a column is a title and an ordered list of distinct
values. A part is a number and its places; a place is the position of a load or a replace, its table, and whether that table was dropped or replaced. All text
is ASCII, so that `str.casefold` and `str.strip` make the key of a value.
"""
import csv
import io
from typing import NamedTuple

import plain_search

NOT_UTF8 = "\udcff"  # stands for the byte ff


class Place(NamedTuple):
    position: int
    table: tuple
    is_dropped: bool


class Part(NamedTuple):
    number: int
    places: tuple


class Version(NamedTuple):
    position: int
    tables: tuple
    parts: tuple
    before: "Version | None" = None  # one entry earlier, or None for the empty lake


EMPTY = Version(0, (), ())


def set_of(values):
    """The distinct values of some fields, in order of first occurrence; a blank field has none."""
    keys = (value.strip().casefold() for value in values)
    return list(dict.fromkeys(key for key in keys if key))


def records(lines):
    """The records of the lines of a table, in CSV, without a byte order mark."""
    return list(csv.reader(io.StringIO("".join(line + "\n" for line in lines).removeprefix("\ufeff"), newline="")))


def csv_fault(records):
    """What is wrong with some records, or None."""
    if not records:
        return "no-header"
    for number, record in enumerate(records, 1):
        if len(record) != len(records[0]):
            return f"record {number} want {len(records[0])} got {len(record)}"
        for place, field in enumerate(record, 1):
            if NOT_UTF8 in field:
                return f"record {number} field {place} not UTF-8"
    return None


def find(at, name):
    return next((table for table in at.tables if table[0] == name), None)


def line(name, columns):
    return f"{name} columns {len(columns)} members {sum(len(keys) for _, keys in columns)}"


def layout(at):
    """The trace line of a version."""
    parts = [f"{part.number}:" + ",".join(f"{place.position}{'-' if place.is_dropped else ''}" for place in part.places) for part in at.parts]
    return f"  layout at {at.position} parts {' '.join(parts) or 'none'}"


def load(at, name, records):
    """The lines of the reply, the version after it, and what the journal says of it, or None if nothing changed. All updates return these."""
    fault = csv_fault(records)
    if fault:
        return [f"refused csv {fault}"], at, None
    if find(at, name):
        return [f"refused repeated {name} at {at.position}"], at, None
    columns = columns_of(records)
    after = put(at, name, columns)
    return [f"loaded {line(name, columns)} at {after.position}"], after, ("load", name)


def columns_of(records):
    """The columns of records without a fault."""
    header, *rows = records
    return tuple((title, set_of(row[place] for row in rows)) for place, title in enumerate(header))


def put(at, name, columns):
    """The next version, with one more table in a part of its own."""
    position = at.position + 1
    part = Part(position, (Place(position, (name, columns), False),))
    return Version(position, at.tables + ((name, columns),), at.parts + (part,), at)


def without(at, name):
    """The tables and the parts of a version, with the table of a name removed and marked."""
    parts = tuple(part._replace(places=tuple(place._replace(is_dropped=place.is_dropped or place.table[0] == name) for place in part.places))
                  for part in at.parts)
    return tuple(table for table in at.tables if table[0] != name), parts


def drop(at, name):
    if not find(at, name):
        return [f"refused unknown {name} at {at.position}"], at, None
    return [f"dropped {name} at {at.position + 1}"], Version(at.position + 1, *without(at, name), at), ("drop", name)


def replace(at, name, records):
    fault = csv_fault(records)
    if fault:
        return [f"refused csv {fault}"], at, None
    if not find(at, name):
        return [f"refused unknown {name} at {at.position}"], at, None
    columns = columns_of(records)
    after = put(Version(at.position, *without(at, name)), name, columns)._replace(before=at)
    return [f"replaced {line(name, columns)} at {after.position}"], after, ("replace", name)


def tier(part):
    return sum(len(place.table[1]) for place in part.places).bit_length()


def planned(at, whole):
    """The parts that a merge takes."""
    parts = at.parts
    if whole:
        return parts if len(parts) > 1 or any(place.is_dropped for part in parts for place in part.places) else ()
    for first in range(len(parts) - 3):
        if len({tier(part) for part in parts[first:first + 4]}) == 1:
            return parts[first:first + 4]
    return next(((part,) for part in parts if 2 * sum(place.is_dropped for place in part.places) >= len(part.places)), ())


def merge(pinned, now, whole):
    """The reply to a merge that was planned at one version and ends at another."""
    plan = planned(pinned, whole)
    if not plan:
        return [f"refused nothing to merge at {pinned.position}", layout(pinned)], now, None
    positions = {part.number: [place.position for place in part.places] for part in now.parts}
    for part in plan:
        if positions.get(part.number) != [place.position for place in part.places]:
            return [f"refused stale part {part.number} at {now.position}", layout(pinned)], now, None
    kept = [place.position for part in plan for place in part.places if not place.is_dropped]
    numbers = [part.number for part in plan]
    first = next(i for i, part in enumerate(now.parts) if part.number == numbers[0])
    position = now.position + 1
    places = tuple(place for part in now.parts[first:first + len(plan)] for place in part.places if place.position in kept)
    made = (Part(position, places),) if places else ()
    parts = now.parts[:first] + made + now.parts[first + len(plan):]
    change = f"from {','.join(map(str, numbers))} kept {','.join(map(str, kept)) or 'none'}"
    reply = [f"merged {len(plan)} parts into {len(kept)} tables at {position}", layout(pinned)]
    return reply, Version(position, now.tables, parts, now), ("swap", change)


def list_tables(at):
    return [f"tables {len(at.tables)} at {at.position}"] + ["  " + line(name, columns) for name, columns in at.tables]


def quoted(title):
    """A column's name as a row shows it."""
    signs = {"\"": "\\\"", "\\": "\\\\", "\n": "\\n", "\r": "\\r", "\t": "\\t"}
    return "".join(signs.get(sign, sign) for sign in title)


def shared_rows(at, query, excepted):
    """A row for each column that shares a key with the query, in the order of an answer: its negated overlap, table, title and place."""
    found = []
    for name, columns in at.tables:
        if name == excepted:
            continue
        for place, (title, keys) in enumerate(columns, 1):
            shared = len(query.intersection(keys))
            if shared:
                found.append((-shared, name.encode(), title.encode(), place))
    return sorted(found)


def row_lines(found):
    return [f"  {-less} {name.decode()} {place} \"{quoted(title.decode())}\"" for less, name, title, place in found]


def answered(at, query, found, work):
    """The reply with these rows and this work."""
    reads, probes = work
    return [f"answer {len(found)} of {len(query)} at {at.position}"] + row_lines(found) + [f"  work reads {reads} probes {probes}", layout(at)]


def answer(at, most, query, excepted):
    return answered(at, query, shared_rows(at, query, excepted)[:most], plain_search.work(at.parts, query, most, excepted))


def query_fault(lines):
    """The reply to lines if one of them is not UTF-8, or else None."""
    return next(([f"refused query line {number} not UTF-8"] for number, text in enumerate(lines, 1) if NOT_UTF8 in text), None)


def search(at, most, lines):
    return query_fault(lines) or answer(at, most, set(set_of(lines)), None)


def contain(at, part, whole, lines):
    """All columns that hold at least the fraction `part` / `whole` of the lines' values."""
    query = set(set_of(lines))
    least = max(1, -(-part * len(query) // whole))
    found = [row for row in shared_rows(at, query, None) if -row[0] >= least]
    return query_fault(lines) or answered(at, query, found, plain_search.contain_work(at.parts, query, least))


def earlier(at, position):
    """The version at a position that is not after this one's."""
    while at.position > position:
        at = at.before
    return at


def as_of(at, asked, most, lines):
    """The reply, at a version, with the columns that shared the most keys with the query after the first `asked` entries."""
    if query_fault(lines):
        return query_fault(lines)
    if asked > at.position:
        return [f"refused later {asked} at {at.position}"]
    query = set(set_of(lines))
    found = shared_rows(earlier(at, asked), query, None)[:most]
    return [f"answer {len(found)} of {len(query)} as of {asked} at {at.position}"] + row_lines(found)


def like(at, most, name, place):
    table = find(at, name)
    if not table:
        return [f"refused unknown {name} at {at.position}"]
    if not 1 <= place <= len(table[1]):
        return [f"refused column {name} {place} at {at.position}"]
    return answer(at, most, set(table[1][place - 1][1]), name)


def journal_line(position, change, lane, number):
    """The line of an entry; lane 0 is the merger, whose commands have numbers of their own."""
    return f"  {position} {change[0]} lane {lane} command {'' if lane else 'm'}{number} {change[1]}"


def written(replies, journal, trace):
    """What a run writes of its replies and its journal, with a trace or without."""
    if trace:
        return replies + [f"journal {len(journal)}"] + journal
    return [text for text in replies if not text.startswith(("  work reads ", "  layout at "))]
