#!/usr/bin/env python3
"""Prints the laws of the crates: public functions with nothing to run, whose contract holds of definitions alone.

Such a function has an empty body, or neither arguments nor a result; its body then calls other laws.

Of each: its crate, its name, the names of its clauses where they have some, and the first sentence of its docs. Fails where a law
has no docs.

Usage: tools/laws.py [CRATE..]
"""

import glob
import os
import re
import sys

TOP = os.path.dirname(os.path.dirname(os.path.abspath(__file__)))
NAME = re.compile(r"pub fn (\w+)(\(\)\s*$)?")
CLAUSE = re.compile(r"\s+ensures(?: (\w+))? \{")
# A sentence ends with a full stop that whitespace and no small letter follows.
SENTENCE = re.compile(r"(.*?[.:])(?=\s+[^a-z]|\s*$)", re.DOTALL)


def laws(path):
    """The laws of a file: name, clauses, docs."""
    with open(path, encoding="utf-8") as file:
        lines = file.read().splitlines()
    docs = []
    for at, line in enumerate(lines):
        if line.startswith("///"):
            docs.append(line[3:].strip())
        elif found := NAME.match(line):
            clauses, end = [], at
            while end < len(lines) and not lines[end].startswith(("{", "}")):
                if clause := CLAUSE.match(lines[end]):
                    clauses.append(clause[1])
                end += 1
            if clauses and (found[2] is not None or end < len(lines) and lines[end].strip() == "{}"):
                yield found[1], [it for it in clauses if it], " ".join(docs).strip()
            docs = []
        elif not line.startswith("#["):
            docs = []


def main(names):
    missing = False
    crates = names or sorted(os.listdir(os.path.join(TOP, "crates")))
    for crate in crates:
        paths = sorted(glob.glob(os.path.join(TOP, "crates", crate, "src", "**", "*.rt"), recursive=True))
        found = [it for path in paths for it in laws(path)]
        if not found:
            continue
        print(crate)
        for name, clauses, docs in found:
            told = f" ({', '.join(clauses)})" if clauses else ""
            sentence = SENTENCE.match(docs)
            missing |= sentence is None
            print(f"    {name}{told}: {sentence[1] if sentence else 'NO DOCS'}")
    return 1 if missing else 0


if __name__ == "__main__":
    sys.exit(main(sys.argv[1:]))
