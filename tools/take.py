#!/usr/bin/env python3
"""Copies crates of this repository, with all below them, into another one, and adds their lines to its crates.txt.

A crate that stands there already is left as it is where its text is the same, and refused where it isn't. Where the other
repository has no file HANDLES and a crate waits or starts threads, the line of this one is written there.

Usage: tools/take.py FOLDER CRATE..
"""

import filecmp
import os
import shutil
import sys

TOP = os.path.dirname(os.path.dirname(os.path.abspath(__file__)))
PARTS = ("src", "specs", "proofs")


def lines(at):
    """The line of each crate in a crates.txt, by name."""
    found = {}
    with open(at) as file:
        for line in file:
            head = line.partition("#")[0].partition(":")[0].split()
            if head:
                found[head[0]] = line.rstrip("\n")
    return found


def with_all_below(names, own):
    """The named crates and those on which they stand, lowest first."""
    order = []

    def visit(name):
        if name in own and name not in order:
            for low in own[name].partition("#")[0].partition(":")[2].split():
                visit(low)
            order.append(name)

    for name in names:
        visit(name)
    return order


def same(one, other):
    """Whether two folders have the same files with the same text."""
    compared = filecmp.dircmp(one, other)
    if compared.left_only or compared.right_only or compared.funny_files:
        return False
    if filecmp.cmpfiles(one, other, compared.common_files, shallow=False)[1:] != ([], []):
        return False
    return all(same(os.path.join(one, it), os.path.join(other, it)) for it in compared.common_dirs)


def parts_of(name, top):
    return [(part, os.path.join(top, "crates", name, part)) for part in PARTS]


def take(name, folder):
    """Copies a crate; False where another one of its name stands there."""
    to = os.path.join(folder, "crates", name)
    there = os.path.isdir(to)
    for part, at in parts_of(name, TOP):
        if not os.path.isdir(at):
            continue
        if there:
            if not (os.path.isdir(os.path.join(to, part)) and same(at, os.path.join(to, part))):
                return False
        else:
            shutil.copytree(at, os.path.join(to, part))
    return True


def main(words):
    if len(words) < 2 or words[0].startswith("-"):
        sys.exit(__doc__)
    folder, names, own = words[0], words[1:], lines(os.path.join(TOP, "crates.txt"))
    unknown = [it for it in names if it not in own]
    if unknown:
        sys.exit(f"take: no crate {unknown[0]} stands in crates.txt")
    os.makedirs(os.path.join(folder, "crates"), exist_ok=True)
    listed = os.path.join(folder, "crates.txt")
    known = lines(listed) if os.path.exists(listed) else {}
    taken = with_all_below(names, own)
    for name in taken:
        if not take(name, folder):
            sys.exit(f"take: another crate {name} stands in {folder}")
    with open(listed, "a+") as file:
        file.seek(0)
        text = file.read()
        file.write("\n" if text and not text.endswith("\n") else "")
        file.writelines(f"{own[it]}\n" for it in taken if it not in known)
    handles = os.path.join(folder, "HANDLES")
    if not os.path.exists(handles) and any("may_" in own[it].partition(":")[0] for it in taken):
        shutil.copyfile(os.path.join(TOP, "HANDLES"), handles)
    print(f"take: {len(taken)} crates: {' '.join(taken)}")


if __name__ == "__main__":
    main(sys.argv[1:])
