#!/usr/bin/env python3
"""Whether the picture of a history in docs/ is what tools/draw makes of its script and text, which kc_examples compares with a run.

    python3 tools/pictures.py [--write]
"""

import pathlib
import sys

TOP = pathlib.Path(__file__).resolve().parent.parent
sys.path.insert(0, str(TOP / "tools" / "second"))
sys.dont_write_bytecode = True

from history import history_of
from picture import Picture
from reader import text_of
from script import Script

DRAWN = {"history.svg": "shutdown"}


def drawn(name):
    script = Script(text_of(TOP / "examples" / f"{name}.kcas"))
    return Picture(script, history_of(script, text_of(TOP / "examples" / f"{name}.txt"))).svg()


def main():
    stale = []
    for file, name in DRAWN.items():
        at = TOP / "docs" / "pictures" / file
        if "--write" in sys.argv:
            at.write_text(drawn(name))
        elif not at.exists() or at.read_text() != drawn(name):
            stale.append(f"docs/pictures/{file} isn't the picture of examples/{name}.txt: python3 tools/pictures.py --write makes it")
    if stale:
        sys.exit("\n".join(stale))


if __name__ == "__main__":
    main()
