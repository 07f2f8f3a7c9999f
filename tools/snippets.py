#!/usr/bin/env python3
"""Compares the snippets of README.md, docs/TOUR.md and docs/FIRST.md with the crates that they are from.

A block that begins with ```rust NAME or ```antt NAME quotes the crate NAME: its lines stand in one file of the crate's src/ or
specs/, one behind another, up to the whitespace at their ends. A comment behind a line of the block is the page's own. A block
of Rust or antt that names no crate is refused. One that begins with ```text NAME is all that the crate's program writes, and an
indented line that a crate of the repository has in crates.txt, as `kc_uses: ..`, or `uses: ..` in a repository of one's own, is
that line. Prints the blocks that stand nowhere, with their first line that fits no more; the status is 0 where there is none.

Usage: tools/snippets.py [FILE..]
"""

import glob
import os
import re
import sys

TOP = os.path.dirname(os.path.dirname(os.path.abspath(__file__)))
# The pages that quote.
PAGES = ("README.md", "docs/TOUR.md", "docs/FIRST.md")
# The languages of snippets, each with what begins a comment.
COMMENTS = {"rust": "//", "antt": "--"}


def blocks(text):
    """The blocks of code: the number of the line above each, the words behind its fence, its lines."""
    found, words, first, lines = [], None, 0, []
    for number, line in enumerate(text.splitlines(), 1):
        if line.strip().startswith("```"):
            if words is None:
                words, first, lines = line.strip()[3:].split(), number, []
            else:
                found.append((first, words, lines))
                words = None
        elif words is not None:
            lines.append(line)
    if words is not None:
        found.append((first, words, lines))
    return found


def sources(crate):
    """The lines of each file of a crate that may be quoted, by name."""
    found = {}
    for part in ("src/**/*.rt", "specs/**/*.antt"):
        for path in sorted(glob.glob(os.path.join(TOP, "crates", crate, part), recursive=True)):
            with open(path, encoding="utf-8") as file:
                found[os.path.relpath(path, TOP)] = [it.strip() for it in file.read().splitlines()]
    return found


def fits(line, source, comment):
    """Whether a line of a block is that of a source, but for a comment of its own."""
    return line == source or line.partition("  " + comment)[0].rstrip() == source


def furthest(lines, files, comment):
    """How many lines of a block stand one behind another in some file, the most of all places, and where."""
    most, where = 0, None
    for name, source in files.items():
        for start in range(len(source)):
            count = 0
            while count < len(lines) and start + count < len(source) and fits(lines[count], source[start + count], comment):
                count += 1
            if count > most:
                most, where = count, f"{name}:{start + 1}"
    return most, where


def listed():
    """What stands behind each crate's name in crates.txt."""
    with open(os.path.join(TOP, "crates.txt"), encoding="utf-8") as file:
        lines = (re.match(r"(\w+)( [^:#]*)?:(.*)", line) for line in file)
        return {it.group(1): f"{it.group(2) or ''}:{it.group(3)}".rstrip() for it in lines if it}


def wrong_lines(at, text):
    """The indented lines that name a crate as crates.txt does, and aren't its line there."""
    crates, quoted = listed(), False
    for number, line in enumerate(text.splitlines(), 1):
        quoted ^= line.strip().startswith("```")
        named = None if quoted else re.match(r" {4}(\w+)( [^:#]*)?:((?: \w+)+)$", line)
        crate = named and next((it for it in (named.group(1), "kc_" + named.group(1)) if it in crates), None)
        if crate and f"{named.group(2) or ''}:{named.group(3)}".rstrip() != crates[crate]:
            yield f"{at}:{number}: the line of {crate} in crates.txt is {crate}{crates[crate]}"


def is_written(crate, lines):
    """Whether these lines are all that a crate's program writes."""
    name = os.path.join(TOP, "crates", crate, "stdout")
    if not os.path.exists(name):
        return False
    with open(name, encoding="utf-8") as file:
        return file.read().splitlines() == lines


def faults(path):
    with open(path, encoding="utf-8") as file:
        text = file.read()
    yield from wrong_lines(os.path.relpath(path, TOP), text)
    for number, words, lines in blocks(text):
        at = f"{os.path.relpath(path, TOP)}:{number}"
        if len(words) == 2 and words[0] == "text" and not is_written(words[1], lines):
            yield f"{at}: that isn't what {words[1]} writes"
        if not words or words[0] not in COMMENTS:
            continue
        if len(words) != 2:
            yield f"{at}: this block names no crate"
            continue
        files = sources(words[1])
        if not files:
            yield f"{at}: there is no crate {words[1]}"
            continue
        lines = [it.strip() for it in lines]
        count, where = furthest(lines, files, COMMENTS[words[0]])
        if not lines:
            yield f"{at}: this block is empty"
        elif count < len(lines):
            behind = f"behind {where}, " if where else ""
            yield f"{at}: stands nowhere in {words[1]}: {behind}line {number + 1 + count} fits no more: {lines[count]}"


def main(paths):
    found = [it for path in paths for it in faults(path)]
    for it in found:
        print(it)
    return 1 if found else 0


if __name__ == "__main__":
    sys.exit(main(sys.argv[1:] or [os.path.join(TOP, it) for it in PAGES]))
