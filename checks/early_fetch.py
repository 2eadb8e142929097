#!/usr/bin/env python3
"""A file is fetched when its line is read, and not when its command runs.

    checks/early_fetch.py [JOSIE]

The file is a named pipe, which opens for writing only when somebody opens it for reading. josie is given only the line at first, and the `sync` after it only
when the pipe has been opened and written. It prints one line, and exits with 0 if the table was loaded.
"""
import os
import subprocess
import tempfile
import time

from check import Wrong, main


def opened(path, seconds):
    """The pipe, open for writing; None if nobody opens it for reading within this time."""
    end = time.monotonic() + seconds
    while time.monotonic() < end:
        try:
            return os.open(path, os.O_WRONLY | os.O_NONBLOCK)
        except OSError:
            time.sleep(0.01)
    return None


def reply(josie, folder):
    """What josie answers, or why it could not be asked."""
    path = os.path.join(folder, "table.csv")
    os.mkfifo(path)
    child = subprocess.Popen([josie, "run"], stdin=subprocess.PIPE, stdout=subprocess.PIPE, cwd=folder)
    child.stdin.write(b"loadfile t table.csv\n")
    child.stdin.flush()
    pipe = opened(path, 20)
    if pipe is None:
        child.kill()
        return "the file was not fetched when its line was read"
    os.write(pipe, b"c\nx\n")
    os.close(pipe)
    out, _ = child.communicate(b"sync\n", timeout=20)
    return out.decode()


def check(josie, _words):
    with tempfile.TemporaryDirectory() as folder:
        got = reply(josie, folder)
    if got != "1 loaded t columns 1 members 1 at 1\n":
        raise Wrong(repr(got))
    return "the file was fetched when its line was read"


if __name__ == "__main__":
    main("early fetch", check)
