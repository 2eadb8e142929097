"""The program as a co-process: batches of commands in, replies out."""

from __future__ import annotations

import os
import shutil
import subprocess
from collections.abc import Sequence
from typing import IO, Any

from .errors import LakeEnded, TooLong
from .replies import further_lines, parsed

#: The most commands of a batch of the program,
BATCH_COMMANDS = 4096
#: and the most bytes of its blocks and files together.
BATCH_BYTES = 536_870_912
#: The most bytes of a block of a script, and of a file.
BLOCK_BYTES = 67_108_864


def find_program() -> str:
    """The program: the one that the variable JOSIE names, or the one that was built in the repository of this package, or `josie` on the path."""
    named = os.environ.get("JOSIE")
    if named:
        return named
    top = os.path.join(os.path.dirname(os.path.abspath(__file__)), "..", "..", "..")
    built = os.path.abspath(os.path.join(top, "crates", "josie", "out", "josie"))
    if os.access(built, os.X_OK):
        return built
    found = shutil.which("josie")
    if found is None:
        raise LakeEnded(None, "no program josie was found; build it with `./josie --version`, or set the variable JOSIE to its path")
    return found


def block(data: bytes) -> bytes:
    """The lines of a block with the dot that ends it; a line that begins with a dot gets one more.

    Raises `TooLong` if the program would stop at it.
    """
    if data and not data.endswith(b"\n"):
        data += b"\n"
    if len(data) > BLOCK_BYTES:
        raise TooLong(f"{len(data)} bytes, of at most {BLOCK_BYTES}")
    if data.startswith(b"."):
        data = b"." + data
    return data.replace(b"\n.", b"\n..") + b".\n"


class Program:
    """A josie that runs until `close`, or until it ends by itself."""

    def __init__(self, path: str | None = None, options: Sequence[str] = ()) -> None:
        pipe = subprocess.PIPE
        try:
            self._child = subprocess.Popen([path or find_program(), "run", *options], stdin=pipe, stdout=pipe, stderr=pipe)
        except OSError as error:
            raise LakeEnded(None, str(error)) from error
        self._between_batches = True

    @property
    def _input(self) -> IO[bytes]:
        assert self._child.stdin is not None
        return self._child.stdin

    @property
    def _output(self) -> IO[bytes]:
        assert self._child.stdout is not None
        return self._child.stdout

    @property
    def _errors(self) -> IO[bytes]:
        assert self._child.stderr is not None
        return self._child.stderr

    def close(self) -> None:
        """Ends the program: closes its standard input, and does not wait for more replies."""
        for stream in (self._input, self._output, self._errors):
            _close(stream)
        self._child.wait()

    def ask(self, commands: Sequence[bytes]) -> list[Any]:
        """The replies to the commands of one batch, refusals among them as exceptions that are not raised.

        The program reads a whole batch before it writes the first reply, so the two pipes cannot both fill up.
        """
        if self._input.closed:
            raise LakeEnded(None, "the lake was closed")
        if not self._between_batches:
            raise LakeEnded(None, "a call was broken off, and its replies are not read")
        if not commands:
            return []
        self._between_batches = False
        try:
            for command in commands:
                self._input.write(command)
            self._input.write(b"sync\n")
            self._input.flush()
            replies = [self._reply() for _ in commands]
        except OSError as error:
            raise self._ended() from error
        self._between_batches = True
        return replies

    def _reply(self) -> Any:
        first = self._line()
        return parsed(first, [self._line() for _ in range(further_lines(first))])

    def _line(self) -> bytes:
        line = self._output.readline()
        if not line.endswith(b"\n"):
            raise self._ended()
        return line[:-1]

    def _ended(self) -> LakeEnded:
        _close(self._input)
        status = self._child.wait()
        return LakeEnded(status, self._errors.read().decode("utf-8", "replace").strip())


def _close(stream: IO[bytes]) -> None:
    """Closes a pipe, whose other end may be closed already."""
    try:
        stream.close()
    except OSError:
        pass
