"""A plain model of a trace: whether its replies and its journal are right for the commands of a script.

The journal is replayed on the model of `plain_lake.py`: each entry belongs to one command, which was accepted at its position, and the version after it is the
model's. Each reply is the model's reply at the positions that it shows, with its work and its layout. Along a lane the positions never decrease, and an entry's
position is greater than all before it. Each position lies between the end of the batch before and the end of its own. Each accepted command has one entry.
"""
import re
from typing import NamedTuple

from check import Wrong
import plain_lake

UPDATES = ("load", "drop", "replace")
PINNED = ("search", "like", "contain", "merge")
NO_MEMORY = ["no memory"]


class Command(NamedTuple):
    batch: int
    lane: int
    number: str
    words: str
    block: list | None


class Reply(NamedTuple):
    command: Command
    lines: list
    pinned: int | None  # the position of the version that was taken or planned at
    at: int | None  # the position at which the reply was made
    is_entry: bool  # whether that is the position of its own entry


def numbered(batches, merger):
    """The commands with their numbers, batch by batch, each batch's merges last."""
    commands, number, merge_number = [], 0, 0
    for place, batch in enumerate(batches):
        commands.append([])
        for lane, words, block in batch:
            number += 1
            commands[-1].append(Command(place, lane, str(number), words, block))
        for _ in range(sum(words.split(" ")[0] in UPDATES for _, words, _ in batch) if merger else 0):
            merge_number += 1
            commands[-1].append(Command(place, 0, f"m{merge_number}", "merge", None))
    return commands


def parted(text):
    """The lines of each reply, under its command's number, and the lines of the journal, or None if it is not there."""
    replies, journal, last = {}, None, None
    lines = text.removesuffix("\n").split("\n") if text else []
    for at, line in enumerate(lines):
        if line.startswith("journal "):
            journal = lines[at + 1:]
            if line != f"journal {len(journal)}":
                raise Wrong(f"{line}, with {len(journal)} lines")
            break
        if line.startswith("  "):
            if last is None:
                raise Wrong("a line before the first reply")
            last.append(line)
        else:
            number, _, rest = line.partition(" ")
            if number in replies:
                raise Wrong(f"two replies to command {number}")
            last = replies[number] = [rest]
    return replies, journal


def joined(replies, journal):
    """The text of these replies and this journal, which `parted` takes apart."""
    lines = [line for number, (first, *more) in replies.items() for line in [f"{number} {first}", *more]]
    return "".join(line + "\n" for line in [*lines, f"journal {len(journal)}", *journal])


def placed(command, lines):
    """A reply with the positions that it shows."""
    at = re.search(r" at ([0-9]+)$", lines[0])
    at = int(at[1]) if at else None
    pinned = None
    if command.words.startswith(PINNED) and at is not None:
        planned = re.search(r"^  layout at ([0-9]+) ", lines[-1])
        pinned = int(planned[1]) if planned else at
    return Reply(command, lines, pinned, at, at is not None and lines[0].startswith(("loaded ", "dropped ", "replaced ", "merged ")))


def made_again(command, pinned, now):
    """The model's reply to a command that was pinned at one version and answered at another, the version after it, and its change."""
    kind, *more = command.words.split(" ")
    if kind == "load":
        return plain_lake.load(now, more[0], plain_lake.records(command.block))
    if kind == "drop":
        return plain_lake.drop(now, more[0])
    if kind == "replace":
        return plain_lake.replace(now, more[0], plain_lake.records(command.block))
    if kind == "merge":
        return plain_lake.merge(pinned, now, more == ["all"])
    if kind == "tables":
        return plain_lake.list_tables(now), now, None
    if kind == "search":
        return plain_lake.search(pinned, int(more[0]), command.block), now, None
    if kind == "contain":
        return plain_lake.contain(pinned, int(more[0]), int(more[1]), command.block), now, None
    if kind == "asof":
        return plain_lake.as_of(now, int(more[0]), int(more[1]), command.block), now, None
    return plain_lake.like(pinned, int(more[0]), more[1], int(more[2])), now, None


def version_at(versions, position):
    """The version at a position, or the empty lake for a reply that has none."""
    if (position or 0) >= len(versions):
        raise Wrong(f"a reply at {position}, where {len(versions) - 1} entries are known")
    return versions[position or 0]


def replayed(replies, journal):
    """The versions of the lake, each made again by the command of its entry, whose line in the journal is compared if there is a journal."""
    by_entry = {reply.at: reply for reply in replies if reply.is_entry}
    entries = sum(reply.is_entry for reply in replies)
    if sorted(by_entry) != list(range(1, entries + 1)) or journal is not None and len(journal) != entries:
        raise Wrong("the accepted commands do not have one entry each")
    versions = [plain_lake.EMPTY]
    for position in range(1, entries + 1):
        reply = by_entry[position]
        pinned = version_at(versions, reply.pinned) if reply.pinned is not None else versions[-1]
        lines, version, change = made_again(reply.command, pinned, versions[-1])
        want = change and plain_lake.journal_line(position, change, reply.command.lane, reply.command.number.removeprefix("m"))
        line = journal[position - 1] if journal is not None else want
        if line != want or lines != reply.lines:
            raise Wrong(f"entry {position}: wanted {want} by {lines}, got {line} by {reply.lines}")
        versions.append(version)
    return versions


def check_replies(replies, versions):
    for reply in replies:
        if reply.is_entry:
            continue
        lines, _, change = made_again(reply.command, version_at(versions, reply.pinned), version_at(versions, reply.at))
        if change or lines != reply.lines:
            raise Wrong(f"command {reply.command.number}: wanted {lines}, got {reply.lines}")


def ends_of(replies, batches):
    """The length of the journal at the end of each batch."""
    owners = [reply.command.batch for reply in sorted((reply for reply in replies if reply.is_entry), key=lambda reply: reply.at)]
    if owners != sorted(owners):
        raise Wrong("a batch has an entry after one of a later batch")
    return [sum(owner <= batch for owner in owners) for batch in range(batches)]


def check_positions(replies, ends):
    low = {}
    for reply in replies:
        lane, batch = reply.command.lane, reply.command.batch
        last = max(low.get(lane, 0), ends[batch - 1] if batch else 0)
        for position, is_entry in ((reply.pinned, False), (reply.at, reply.is_entry)):
            if position is None:
                continue
            if not last + is_entry <= position <= ends[batch]:
                entry = "its entry" if is_entry else "position"
                raise Wrong(f"command {reply.command.number}: {entry} {position} after {last}, in a batch that ends at {ends[batch]}")
            last = position
        low[lane] = last


def checked(replies, journal, batches):
    """The length of the journal at the end of each batch, if all replies and the journal, if there is one, are right."""
    check_replies(replies, replayed(replies, journal))
    ends = ends_of(replies, batches)
    check_positions(replies, ends)
    return ends


def check_trace(text, batches):
    """Checks that a text is, byte for byte, the trace of a right run of all the commands of some batches, any of which may have run out of memory."""
    lines, journal = parted(text)
    if journal is None:
        raise Wrong("no journal")
    commands = [command for batch in batches for command in batch]
    if list(lines) != [command.number for command in commands]:
        raise Wrong(f"replies to {list(lines)}")
    if joined(lines, journal) != text:
        raise Wrong("no line feed at the end")
    checked([placed(command, lines[command.number]) for command in commands if lines[command.number] != NO_MEMORY], journal, len(batches))


def is_right(trace, batches):
    """Whether these bytes are the trace of a right run of the commands, all of whose names are ASCII."""
    try:
        check_trace(trace.decode("latin-1"), batches)
    except Wrong:
        return False
    return True
