"""A second reader of texts: whether a text is one of a script, and else the first test that it fails and its line.

    python3 tools/second/reader.py SCRIPT TEXT

It knows docs/SCRIPTS.md and docs/CELLS.md alone, and shares nothing with the program. It replays the script's commands in the order that
the text prints, and compares each reply, the canonical order, which it finds from what each command read and put, and the last values.
The status is 0 where all agree, else 1, and a line on standard error says what doesn't.
"""

import sys

from history import Fault, history_of
from script import Script


def text_of(path):
    # A byte is a character, whatever it is.
    with open(path, encoding="latin-1", newline="") as file:
        return file.read()


if __name__ == "__main__":
    try:
        history_of(Script(text_of(sys.argv[1])), text_of(sys.argv[2]))
    except Fault as fault:
        sys.exit(f"{sys.argv[2]}: {fault}")
