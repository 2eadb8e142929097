"""Names of tables."""

from __future__ import annotations

import os

from .errors import NameInvalid


def is_name(name: bytes) -> bool:
    """Whether the bytes are a table's name: 1 to 255 of them, each from 0x21 to 0x7E."""
    return 1 <= len(name) <= 255 and all(0x21 <= byte <= 0x7E for byte in name)


def checked(name: str) -> bytes:
    """The bytes of a name."""
    encoded = name.encode("utf-8", "surrogatepass")
    if not is_name(encoded):
        raise NameInvalid(f"{name!r} is no name of a table: 1 to 255 bytes of printable ASCII without the space")
    return encoded


def table_name(path: str | os.PathLike[str]) -> str:
    """The name of a file's table: the file's own name without `.csv` at its end. Each byte that a table's name cannot have, and each `%`, is
    written as `%` and two hexadecimal digits. A name that does not end in `.csv` is kept whole, followed by a `%`. So no two files of a
    folder get the same name.

    >>> table_name("data/stations.csv")
    'stations'
    >>> table_name("data/wind speeds 5%.csv")
    'wind%20speeds%205%25'
    >>> table_name("data/STATIONS.CSV")
    'STATIONS.CSV%'
    """
    name = os.path.basename(os.fspath(path))
    stem, mark = (name[:-4], "") if name.endswith(".csv") else (name, "%")
    return "".join(chr(byte) if 0x21 <= byte <= 0x7E and byte != 0x25 else f"%{byte:02X}" for byte in os.fsencode(stem)) + mark
