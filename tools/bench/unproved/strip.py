"""Takes out of a module, as text of LLVM, what `rt try` adds to test it, and marks functions as the sources wish them in line.

Usage: strip.py KIT REPOSITORY < module.ll > stripped.ll
"""

import os
import re
import sys

MARKS = {"inline(always)": "alwaysinline", "inline(never)": "noinline", "inline": "inlinehint", "cold": "cold"}
ADDED = ('"frame-pointer"="all" ', '"probe-stack"="inline-asm" ', '"stack-probe-size"="3072" ', "sanitize_address ")
TESTS = ("rattle-llvm-checks", "@llvm.trap")


def type_name(words):
    """The last name of a type, without what borrows it and its parameters."""
    return re.sub(r"<.*", "", re.sub(r"^&('\w+ )?(mut )?", "", words)).split("::")[-1].strip()


def without_parameters(words):
    """What stands behind an impl's own parameters."""
    if not words.startswith("<"):
        return words
    depth = 0
    for at, it in enumerate(words):
        depth += it == "<"
        depth -= it == ">" and words[at - 1] != "-"
        if depth == 0:
            return words[at + 1 :].strip()
    return words


def owner(line, path, homes):
    """Under which path LLVM's text has the functions of this impl: a type's own stand where the type does, wherever they are written."""
    words = without_parameters(line[4:].strip()).split(" where")[0].rstrip("{ ")
    first, found, second = words.partition(" for ")
    if found:
        return [*path, type_name(second) + type_name(first)]
    return [*homes.get((path[0], type_name(first)), path), type_name(first)]


def homes_of(file, path):
    """The types of a file, each with its crate, and where it stands."""
    for line in file:
        named = re.match(r"(?:pub(?:\([^)]*\))? )?(?:struct|enum) (\w+)", line)
        if named:
            yield (path[0], named.group(1)), path


def wishes_of(file, path, homes):
    """The functions of a file with what they are marked, by their names in LLVM's text."""
    within, pending = None, []
    for line in file:
        words = line.strip()
        if line.startswith("impl"):
            within = owner(line, path, homes)
        elif line.startswith("}"):
            within = None
        if words.startswith("#["):
            pending.append(words[2:].rstrip("]"))
            continue
        named = re.match(r"(?:pub(?:\([^)]*\))? )?(?:const )?fn (\w+)", words)
        if named:
            marks = {MARKS[it] for it in pending if it in MARKS}
            if marks:
                yield "::".join([*(within if within and line[0] in " \t" else path), named.group(1)]), marks
        if words and not words.startswith("//"):
            pending = []


def sources(top):
    """The files of all crates of a folder, each with its path as in LLVM's text."""
    for crate in os.listdir(top):
        source = os.path.join(top, crate, "src")
        for at, _, names in os.walk(source):
            for name in names:
                if name.endswith(".rt"):
                    path = os.path.relpath(os.path.join(at, name), source)[:-3].split(os.sep)
                    yield os.path.join(at, name), [crate, *(it for it in path if it not in ("lib", "main", "mod"))]


def each_file(top, found_in):
    """What is found in the files of all crates of a folder."""
    found = {}
    for name, path in sources(top):
        with open(name, encoding="utf-8") as file:
            found.update(found_in(file, path))
    return found


def wishes(top):
    """Of all crates of a folder."""
    homes = each_file(top, homes_of)
    return each_file(top, lambda file, path: wishes_of(file, path, homes))


def stripped(line, marks):
    """A line without what was added; nothing for a test."""
    if line.startswith("define"):
        name = re.search(r'@"?([^"(]+)"?\(', line).group(1).split("::<")[0]
        return line.replace(" #", f" {' '.join(sorted(marks[name]))} #", 1) if name in marks else line
    if "call" in line and any(it in line for it in TESTS):
        return ""
    if line.startswith("attributes"):
        for it in ADDED:
            line = line.replace(it, "")
        return re.sub(r"\{\s*\}", "{ nounwind }", line)
    return line


def main():
    kit, top = sys.argv[1:]
    marks = {**wishes(os.path.join(kit, "rattle")), **wishes(os.path.join(top, "crates"))}
    for line in sys.stdin:
        sys.stdout.write(stripped(line, marks))


if __name__ == "__main__":
    main()
