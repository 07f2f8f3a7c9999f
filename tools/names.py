#!/usr/bin/env python3
"""Fails where the specs of two crates give two definitions one name, and prints both.

A definition stands at the begin of a line, or within `module` or `mutual`. Fields, constructors and modules are none.

Usage: tools/names.py
"""

import os
import re
import sys

TOP = os.path.dirname(os.path.dirname(os.path.abspath(__file__)))
DEFINED = re.compile(r"(?:(?:unfoldable|abbrev|pub|record|data) )+([A-Za-z_][^\s:({]*)")
BLOCK = re.compile(r"module|mutual|abbrev mutual")
IMPORT = re.compile(r"(?:pub )?(?:use|mod) ")


def definitions(path):
    """The names that a file of specs defines for others, each with its line."""
    within = False
    with open(path) as file:
        for number, line in enumerate(file, 1):
            text = line.lstrip(" ")
            depth = len(line) - len(text)
            if depth == 0 and text.strip():
                within = bool(BLOCK.match(text))
            if IMPORT.match(text) or "pub " not in text.partition(":")[0] or depth > (2 if within else 0):
                continue
            if name := DEFINED.match(text):
                yield name.group(1), number


def files():
    """The files of all crates' specs, each with its crate."""
    crates = os.path.join(TOP, "crates")
    for crate in sorted(os.listdir(crates)):
        for folder, _, names in os.walk(os.path.join(crates, crate, "specs")):
            for name in sorted(names):
                if name.endswith(".antt"):
                    yield crate, os.path.join(folder, name)


def main():
    places = {}
    for crate, path in files():
        for name, line in definitions(path):
            places.setdefault(name, {}).setdefault(crate, f"{os.path.relpath(path, TOP)}:{line}")
    twice = {name: of for name, of in places.items() if len(of) > 1}
    for name, of in sorted(twice.items()):
        print(f"{name} is defined in {', '.join(of.values())}", file=sys.stderr)
    return 1 if twice else 0


if __name__ == "__main__":
    sys.exit(main())
