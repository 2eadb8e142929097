"""What the checks of the built program have in common: where the program is, and how a check ends.

A check is a function that takes the program's path and the arguments after it on the command line. It returns what it found right, in a few words, and raises
`Wrong` if the program does not do what is expected.
"""
import os
import sys

HERE = os.path.dirname(os.path.abspath(__file__))
PROGRAM = os.path.join(HERE, "..", "crates", "josie", "out", "josie")


class Wrong(Exception):
    """What the program did, and what was expected."""


def main(name, check):
    """Runs a check by its name, prints its one line, and exits: with 0 if nothing was wrong."""
    words = [word for word in sys.argv[1:] if not word.startswith("--")]
    josie = os.path.abspath(words[0] if words else PROGRAM)
    try:
        print(f"{name}: {check(josie, words[1:])}")
    except Wrong as wrong:
        print(f"{name}: {wrong}")
        sys.exit(1)
