"""A client of josie, the exact joinable-table search.

>>> from josie import Lake
>>> with Lake() as lake:
...     lake.load("stations", b"id,city\\n1,Oslo\\n2,Lima\\n")
...     for match in lake.search(["OSLO", "Rome"], k=5):
...         print(match.table, match.column, match.overlap)
Loaded(name='stations', columns=2, members=4, position=1)
stations city 1

The program runs as a co-process for as long as the `with` block does, and holds the tables in memory.
"""

from .errors import (
    ColumnUnknown,
    CountInvalid,
    FileRefused,
    FolderEmpty,
    JosieError,
    LakeEnded,
    LakeFull,
    NameInvalid,
    NameTaken,
    OutOfMemory,
    PositionUnknown,
    QueryRefused,
    Refused,
    ShardFailed,
    TableRefused,
    TableUnknown,
    TooLong,
    ValueInvalid,
)
from .findings import Findings, Found
from .lake import Lake
from .names import table_name
from .partners import Asked, Partner, Survey, joinable, survey
from .profiles import Profile, profile
from .replies import Answer, Dropped, FolderLoad, Loaded, Match, Merged, PastAnswer, Replaced, Table
from .reports import report
from .sharded import Shard, ShardedAnswer, ShardedLake

__all__ = [
    "Answer",
    "Asked",
    "ColumnUnknown",
    "CountInvalid",
    "Dropped",
    "FileRefused",
    "Findings",
    "FolderEmpty",
    "FolderLoad",
    "Found",
    "joinable",
    "JosieError",
    "Lake",
    "LakeEnded",
    "LakeFull",
    "Loaded",
    "Match",
    "Merged",
    "NameInvalid",
    "NameTaken",
    "OutOfMemory",
    "Partner",
    "PastAnswer",
    "PositionUnknown",
    "profile",
    "Profile",
    "QueryRefused",
    "Refused",
    "Replaced",
    "report",
    "Shard",
    "ShardedAnswer",
    "ShardedLake",
    "ShardFailed",
    "Survey",
    "survey",
    "Table",
    "table_name",
    "TableRefused",
    "TableUnknown",
    "TooLong",
    "ValueInvalid",
]
