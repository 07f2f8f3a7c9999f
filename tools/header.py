#!/usr/bin/env python3
"""Compares the numbers of c/kcas.h, and the order of its structs' fields, with the sources whose laws state them; the numbers of the wrappers in
Rust and Python with the header; and its version with all that name one. Says what differs.

Usage: tools/header.py
"""

import ast
import os
import re
import sys

TOP = os.path.dirname(os.path.dirname(os.path.abspath(__file__)))

# The sources of C's numbers, and the words that C says otherwise.
CALLS = ("kinds", "verbs", "reply", "calls")
SAID = {
    "LOCATION": "LOC", "ACCUMULATOR": "ACC", "EXCHANGE": "XCHG", "POP_WAIT": "POPW", "DEQ_WAIT": "DEQW", "CPUT_WAIT": "CPUTW",
    "PUSH_WAIT": "PUSHW", "ENQ_WAIT": "ENQW", "PUT_WAIT": "PUTW",
    "MOST_CALLS": "MOST_OPS",
}
# In sources alone: what no enum of the header names.
UNNAMED = {"NO_NUMBER"}
# In the header alone: limits, and what a body of the header's own answers.
OF_THE_HEADER = {"MOST_LOCATIONS", "MOST_CALLERS", "MOST_TOUCHED", "COMMIT", "WAIT", "STOP"}
# Structs by their names here and there.
STRUCTS = {
    "kcas_object": ("kc_calls/src/object.rt", "KcasObject"),
    "kcas_op": ("kc_calls/src/operation.rt", "KcasOp"),
    "kcas_reply": ("kc_calls/src/reply.rt", "KcasReply"),
    "kcas_seen": ("kc_c/src/reading.rt", "KcasSeen"),
}


def text_of(*path):
    with open(os.path.join(TOP, *path)) as file:
        return file.read()


def in_header(header):
    """The numbers of all enums, without KCAS_; one without a number has the next."""
    found = {}
    for body in re.findall(r"enum \{(.*?)\}", header, re.S):
        number = -1
        for entry in re.sub(r"/\*.*?\*/", "", body, flags=re.S).split(","):
            name, _, given = entry.strip().partition("=")
            if name.strip():
                number = int(given) if given.strip() else number + 1
                found[name.strip().removeprefix("KCAS_")] = number
    return found


def in_sources():
    """The constants of the sources, by C's words."""
    texts = [text_of("crates/kc_calls/src", f"{it}.rt") for it in CALLS] + [text_of("crates/kc_c/src/answers.rt")]
    found = {}
    for name, number in re.findall(r"const ([A-Z_]+): u32 = (\w+);", "\n".join(texts)):
        found[SAID.get(name, name)] = int(number.replace("_", ""), 0)
    return found


def fields_in_header(header, name):
    """The fields of a struct, in order."""
    body = re.search(rf"typedef struct {name} \{{(.*?)\}}", header, re.S).group(1)
    fields = []
    for line in re.sub(r"/\*.*?\*/", "", body, flags=re.S).split(";"):
        fields += [it.split()[-1] for it in line.split(",") if it.strip()]
    return fields


def fields_in_source(path, name):
    body = re.search(rf"#\[repr\(C\)\]\n#\[derive[^\n]*\n?pub struct {name} \{{(.*?)\n\}}", text_of("crates", path), re.S).group(1)
    return re.findall(r"^    pub (\w+):", body, re.M)


def in_rust():
    """The numbers of the wrapper in Rust."""
    return {name: int(number) for name, number in re.findall(r"const (\w+): \w+ = (\d+);", text_of("c/rust/src/numbers.rs"))}


# What each list of words of the wrapper in Python is called before a word in the header.
LISTS = {"VERBS": "", "KINDS": "", "FUNCTIONS": "FUN_", "RELATIONS": "", "REPLIES": ""}


def in_python():
    """The numbers of the wrapper in Python: its own, and each word's place in its list, from 1 on."""
    found = {}
    for names, numbers in re.findall(r"^([A-Z_]+(?:, [A-Z_]+)*) = (\d+(?:, \d+)*)$", text_of("c/python/kcas/__init__.py"), re.M):
        found.update(zip(names.split(", "), map(int, numbers.split(", "))))
    for node in ast.parse(text_of("c/python/kcas/_numbers.py")).body:
        if isinstance(node, ast.Assign):
            before = LISTS[node.targets[0].id]
            for number, word in enumerate(node.value.func.value.value.split(), 1):
                found[before + word.upper()] = number
    return found


def versions(header):
    """The version, by the files that name it."""
    numbers = re.findall(r"#define KCAS_VERSION_(?:MAJOR|MINOR|PATCH) (\d+)", header)
    yield "the numbers of c/kcas.h", ".".join(numbers)
    for path, form in (
        ("c/kcas.h", r'#define KCAS_VERSION "(.*)"'),
        ("CHANGELOG.md", r"^## (\d\S*)"),
        ("c/rust/Cargo.toml", r'^version = "(.*)"'),
        ("c/python/pyproject.toml", r'^version = "(.*)"'),
        ("c/python/kcas/__init__.py", r'^__version__ = "(.*)"'),
    ):
        yield path, re.search(form, text_of(path), re.M).group(1)


def differences():
    header = text_of("c/kcas.h")
    said, meant = in_header(header), in_sources()
    for name in sorted(said.keys() - OF_THE_HEADER | meant.keys() - UNNAMED):
        if said.get(name) != meant.get(name):
            yield f"KCAS_{name} is {said.get(name)} in c/kcas.h and {meant.get(name)} in the sources"
    for name, (path, struct) in STRUCTS.items():
        if fields_in_header(header, name) != fields_in_source(path, struct):
            yield f"{name} of c/kcas.h has other fields than {struct} of crates/{path}"
    for language, numbers in (("rust", in_rust()), ("python", in_python())):
        for name, number in numbers.items():
            if said.get(name) != number:
                yield f"KCAS_{name} is {said.get(name)} in c/kcas.h and {number} in c/{language}"
    named = dict(versions(header))
    for path, version in named.items():
        if version != named["CHANGELOG.md"]:
            yield f"the version is {version} by {path}, and {named['CHANGELOG.md']} by CHANGELOG.md"


if __name__ == "__main__":
    found = list(differences())
    print("\n".join(found), end="\n" if found else "")
    sys.exit(bool(found))
