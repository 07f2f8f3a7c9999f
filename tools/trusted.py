#!/usr/bin/env python3
"""What a reader of a contract has to trust: the definitions that it names, and that these name, down to the kit's own.

Of an `impl Model` only its `Value` counts: no clause says how the value arises, and a caller concludes only what follows for
some such function. Lines are those with code. A name that a definition binds isn't followed.

Usage: tools/trusted.py              what stands behind the headline and behind the store, in short
       tools/trusted.py --page       docs/READING.md, as it should be
       tools/trusted.py --check      whether there is more to trust than the page says
"""

import collections
import os
import re
import sys

TOP = os.path.dirname(os.path.dirname(os.path.abspath(__file__)))
CRATES = os.path.join(TOP, "crates")
PAGE = os.path.join(TOP, "docs", "READING.md")
BELOW = ("kc_machine", "kc_table", "kc_hang")

WORD = r"[A-Za-z_][A-Za-z0-9_'\-]*"
PATH = re.compile(WORD + r"(?:\.(?:" + WORD + r"|[0-9]+))*")
STRING = re.compile(r'"(?:\\.|[^"\\])*"')
# Words of Rust that name nothing of ours.
RUST = set("u8 u16 u32 u64 usize bool str Self Option Result String Vec Box self".split())


class Definition:
    """A definition of specs/, or an item of src/."""

    def __init__(self, crate, file, kind, name, line):
        self.crate, self.file, self.kind, self.name, self.line = crate, file, kind, name, line
        self.body, self.comment, self.inside = [], [], None

    def code(self):
        """How many lines of it have code."""
        heads = ("--", "//", "#[")
        return sum(1 for it in self.body if it.strip() and not it.strip().startswith(heads))


def parts_of_use(text):
    """Of one `use`: (the name here, the path, the name there; None for the whole path)."""
    found = re.match(r"\s*(?:pub )?use (Rattle\.[\w.\-]+?)(?:\.\{(.*)\})?(?: as (\S+))?\s*;?\s*$", text)
    if not found:
        return []
    path, names, alias = found.groups()
    if names is None:
        return [(alias or path.split(".")[-1], path, None)]
    said = [it.strip().split(" as ") for it in names.split(",") if it.strip()]
    return [(it[-1].strip(), path, it[0].strip()) for it in said]


class Specs:
    """A file of specs/."""

    def __init__(self, crate, module, path):
        self.crate, self.module = crate, module
        self.imports, self.definitions, self.constructors = {}, {}, {}
        with open(path) as file:
            self.read(file.read().split("\n"), os.path.relpath(path, CRATES))
        for it in self.definitions.values():
            if it.kind == "data":
                for line in it.body[1:]:
                    if found := re.match(r"\s+([\w'\-◌∷]+) :", line):
                        self.constructors[found.group(1)] = it

    def read(self, lines, file):
        now, comment, blocks, head = None, [], [], None
        for number, line in enumerate(lines, 1):
            text, indent = line.strip(), len(line) - len(line.lstrip())
            if not text or text.startswith("--"):
                comment = comment + [text] if text else []
                continue
            if re.match(r"(pub )?use ", text):
                self.imports.update({a: (b, c) for a, b, c in parts_of_use(text)})
                now, comment = None, []
                continue
            if re.match(r"(pub )?mod |infix", text):
                continue
            while blocks and indent <= blocks[-1][0]:
                blocks.pop()
            if text in ("mutual", "abbrev mutual", "unfoldable mutual"):
                blocks.append((indent, None))
                continue
            if head is not None:
                head.body.append(line)
                head = None if text.endswith("where") else head
                continue
            found = re.match(r"(?:(abbrev|unfoldable) )?(pub )?(?:(record|data) )?([^\s:(){}]+)(.*)$", text)
            base = blocks[-1][0] + 2 if blocks else 0
            if text.startswith("module "):
                now = self.begin(file, "module", f"module at {number}", number, blocks)
                blocks.append((indent, now))
                head = None if text.endswith("where") else now
            elif indent == base and found and (any(found.groups()[:3]) or re.match(r"\s*:", found.group(5))):
                now = self.begin(file, found.group(3) or "def", found.group(4), number, blocks)
            if now is not None:
                now.comment += comment
                now.body.append(line)
            comment = []

    def begin(self, file, kind, name, number, blocks):
        it = Definition(self.crate, file, kind, name, number)
        it.inside = next((block for _, block in reversed(blocks) if block is not None), None)
        self.definitions[name] = it
        return it


class Source:
    """A file of src/."""

    def __init__(self, crate, path):
        self.crate, self.imports, self.items, self.models = crate, {}, {}, {}
        with open(path) as file:
            text = file.read()
        for found in re.finditer(r"^\s*(?:pub(?:\([a-z]+\))? )?(?:ghost )?use ([^;]+);", text, re.M):
            self.take(re.sub(r"\s+", " ", found.group(1)))
        self.read(text.split("\n"), os.path.relpath(path, CRATES))

    def take(self, said):
        if said.startswith("Rattle"):
            self.imports.update({a: (b, c) for a, b, c in parts_of_use("use " + said)})
        elif found := re.match(r"([\w:]+?)(?:::\{(.*)\})?(?: as (\w+))?$", said):
            path, names, alias = found.groups()
            first, _, last = path.rpartition("::")
            for it in [n.strip() for n in names.split(",") if n.strip()] if names else [last + (f" as {alias}" if alias else "")]:
                there, _, here = it.partition(" as ")
                self.imports.setdefault(here or there, ("rust " + (path if names else first), there))

    def read(self, lines, file):
        comment, at = [], 0
        while at < len(lines):
            line = lines[at]
            if line.strip().startswith(("//", "#")):
                comment.append(line.strip())
                at += 1
                continue
            item = re.match(r"(?:pub(?:\([a-z]+\))? )?(struct|enum|trait|const|type|static)\s+(\w+)", line)
            model = re.match(r"impl(?:<.*?>)?\s+Model for (\w+)", line)
            if item or model or re.match(r"impl\b|(?:pub(?:\([a-z]+\))? )?fn ", line):
                end = end_of(lines, at)
                if item or model:
                    it = Definition(self.crate, file, item.group(1) if item else "model", (item or model).groups()[-1], at + 1)
                    it.body, it.comment = lines[at:end], comment
                    (self.items if item else self.models)[it.name] = it
                at = end - 1
            comment = []
            at += 1


def end_of(lines, at):
    """The line behind the item that begins here."""
    depth, seen = 0, False
    for number in range(at, len(lines)):
        text = re.sub(r"//.*", "", STRING.sub('""', lines[number]))
        depth += text.count("{") - text.count("}")
        seen = seen or "{" in text
        ends = text.rstrip()
        if depth == 0 and (lines[number].startswith("}") or ends.endswith(";") or seen and ends.endswith("}") and number == at):
            return number + 1
    return len(lines)


def bound(text):
    """The names that a text binds by λ or with a type."""
    found = set()
    for it in re.finditer(r"λ ([^.]*?)\.(?: |$)", text):
        found.update(re.findall(WORD, re.sub(r":[^()]*", "", it.group(1))))
    for it in re.finditer(r"[({]([\w' \-]+?) ?:(?!:)", text):
        found.update(it.group(1).split())
    return found


class Tree:
    """All crates, and what each definition names."""

    def __init__(self):
        self.specs, self.sources = {}, {}
        self.crates = sorted(os.listdir(CRATES))
        for crate in self.crates:
            for path in files(os.path.join(CRATES, crate, "specs"), ".antt"):
                module = os.path.relpath(path, os.path.join(CRATES, crate, "specs"))[:-5].replace("/", ".")
                if module not in ("Lib", "Lemmas"):
                    self.specs[crate, module] = Specs(crate, module, path)
            self.sources[crate] = [Source(crate, path) for path in files(os.path.join(CRATES, crate, "src"), ".rt")]

    def item(self, crate, name, seen=()):
        """An item of a crate, also where it hands on another's."""
        for source in self.sources.get(crate, []):
            if name in source.items:
                return source.items[name]
        for source in self.sources.get(crate, []):
            path, there = source.imports.get(name, ("", None))
            other = path.removeprefix("rust ").split("::")[0]
            if path.startswith("rust ") and other in self.crates and (crate, name) not in seen:
                return self.item(other, there, seen + ((crate, name),))
        return None

    def named(self, path, name):
        """What a path of specs/ and a name in it stand for: a definition, a module of specs/, or None where it is the kit's."""
        parts = [it for it in path.split(".")[1:] if it != "specs"]
        while len(parts) > 1 and parts[1] in self.crates:
            parts = parts[1:]
        crate, rest = parts[0], parts[1:]
        if crate not in self.crates:
            return None
        if rest[:1] == ["declared"]:
            wanted = rest[-2] if rest[-1] == "TheVariants" else name or rest[-1]
            return self.item(crate, wanted)
        here = self.specs.get((crate, ".".join(rest)))
        if here and name is None:
            return here
        if here:
            there = here.definitions.get(name) or here.constructors.get(name)
            return there or (self.named(*here.imports[name]) if name in here.imports else None)
        above = self.specs.get((crate, ".".join(rest[:-1])))
        return above.definitions.get(rest[-1]) if above else None

    def names_of(self, it):
        """What a definition names."""
        if it.file.split("/")[1] == "specs":
            return self.names_in_specs(it, self.specs[it.crate, it.file.split("/specs/")[1][:-5].replace("/", ".")])
        source = next(s for s in self.sources[it.crate] if s.items.get(it.name) is it or s.models.get(it.name) is it)
        if it.kind == "struct" and it.name in source.models:
            return self.names_in_source(source.models[it.name], source)
        return self.names_in_source(it, source)

    def names_in_specs(self, it, specs):
        text = STRING.sub('""', "\n".join(it.body))
        held = bound(text) | (bound("\n".join(it.inside.body)) if it.inside else set())
        if it.kind in ("record", "data"):
            held |= {m.group(1) for line in it.body[1:] if (m := re.match(r"\s+(?:pub )?([\w'\-]+) :", line))}
        found = {it.inside} if it.inside else set()
        for equation in equations(it):
            found |= self.names_in_equation(equation, it, specs, held)
        for name, (path, there) in specs.imports.items():
            if "◌" in name and there and name.replace("◌", "") in text:
                found.add(self.named(path, there))
        found |= {d for n, d in specs.definitions.items() if "◌" in n and n != it.name and n.replace("◌", "") in text}
        return found - {it, None}

    def names_in_equation(self, text, it, specs, held):
        left = text.split(" =")[0] if re.match(r"\s*" + re.escape(it.name) + r"(\s|$)", text) and " =" in text else ""
        held = held | {w for w in PATH.findall(left) if "." not in w and w != it.name and (w not in specs.imports or w[0].islower())}
        found = set()
        for match in PATH.finditer(text):
            first, *more = match.group(0).split(".")
            if text[match.start() - 1 : match.start()] == "." or first in held or first == it.name:
                continue
            if first in specs.definitions:
                found.add(specs.definitions[first])
            elif first in specs.constructors:
                found.add(specs.constructors[first])
            elif first in specs.imports:
                there = self.named(*specs.imports[first])
                if isinstance(there, Specs):
                    there = more and (there.definitions.get(more[0]) or there.constructors.get(more[0])) or None
                found.add(there)
        return {d for d in found if d is not None and d.kind != "module"}

    def names_in_source(self, it, source, body=None):
        body = [line for line in body or it.body if not line.strip().startswith(("//", "#"))]
        if it is not None and it.kind == "model":
            body = [line for line in body if re.match(r"\s*ghost (use|Value)\b", line)]
        text, imports = "\n".join(body), dict(source.imports)
        for found in re.finditer(r"ghost use ([^;]+);", text):
            imports.update({a: (b, c) for a, b, c in parts_of_use("use " + re.sub(r"\s+", " ", found.group(1)))})
        text = STRING.sub('""', re.sub(r"(?:ghost )?use [^;]+;", "", text))
        names = set()
        for match in re.finditer(r"[A-Za-z_][A-Za-z0-9_']*", text):
            word = match.group(0)
            if word in RUST or it is not None and word == it.name or text[match.start() - 1 : match.start()] == ".":
                continue
            if word in imports:
                path, there = imports[word]
                crate = path.removeprefix("rust ").split("::")[0]
                crate = source.crate if crate in ("crate", "super") else crate
                named = self.item(crate, there) if path.startswith("rust ") else self.named(path, there)
                names.add(None if isinstance(named, Specs) else named)
            elif word in source.items:
                names.add(source.items[word])
        return names - {None}

    def behind(self, roots):
        """All definitions that these name, and that those name."""
        found, left = set(roots), collections.deque(roots)
        while left:
            for it in self.names_of(left.popleft()) - found:
                found.add(it)
                left.append(it)
        return found

    def clauses_of(self, crate):
        """What the contracts of a crate's public functions name."""
        names = set()
        for source, path in zip(self.sources[crate], files(os.path.join(CRATES, crate, "src"), ".rt")):
            with open(path) as file:
                lines = file.read().split("\n")
            for at, line in enumerate(lines):
                if re.match(r"\s*pub (?:const )?fn \w+", line):
                    names |= self.names_in_source(None, source, signature(lines, at))
        return names


def equations(it):
    """A definition's text, cut before each of its equations, without comments."""
    cuts, now = [], []
    for line in it.body:
        if line.strip().startswith("--"):
            continue
        if now and re.match(r"\s*" + re.escape(it.name) + r"(\s|$)", line):
            cuts.append(now)
            now = []
        now.append(line)
    return [STRING.sub('""', "\n".join(cut)) for cut in cuts + [now]]


def signature(lines, at):
    """A function's head and contract."""
    indent = re.match(r"\s*", lines[at]).group(0)
    for end in range(at, len(lines)):
        text = lines[end].rstrip()
        opens = text.endswith(" {") and not re.match(r"\s*(requires|ensures)", text)
        if text == indent + "{" or opens or text.endswith(("{}", ";")):
            break
    return lines[at : end + 1]


def files(folder, ending):
    found = [os.path.join(at, it) for at, _, names in os.walk(folder) for it in names if it.endswith(ending)]
    return sorted(found)


def questions(tree):
    """What a reader may want to trust, by its heading: the definitions behind it."""
    statuses = tree.specs["kc_top", "Statuses"].definitions["StatusSays"]
    ends = {tree.item("kc_model", it) for it in ("Source", "Sink", "Shelf")} | {tree.item("kc_run", "Gate")}
    return {
        "the headline, and all that the program answers": tree.behind({statuses} | ends - {None}),
        "the lock-free store, all its public calls": tree.behind(tree.clauses_of("kc_store")),
        "the store behind one lock": tree.behind(tree.clauses_of("kc_locked")),
    }


def counts(found):
    """Definitions and lines, and of these the machine's and the table's."""
    said = []
    for some in (found, [it for it in found if it.crate.startswith(BELOW)]):
        said += [sum(it.kind != "module" for it in some), sum(it.code() for it in some)]
    return said


def heading(name, found):
    definitions, lines, below, lines_below = counts(found)
    return f"## Behind {name}: {definitions} definitions, {lines} lines; of the machine and the table {below}, {lines_below}"


def in_order():
    """The crates, each behind those that it stands on."""
    on = {}
    with open(os.path.join(TOP, "crates.txt")) as file:
        for line in file:
            head, colon, rest = line.partition("#")[0].partition(":")
            if colon:
                on[head.split()[0]] = rest.split()
    done = []

    def take(crate):
        if crate in on and crate not in done:
            for it in sorted(on[crate]):
                take(it)
            done.append(crate)

    for crate in sorted(on):
        take(crate)
    return done


def page(tree):
    """The page, a section for each question."""
    said = [
        "# Reading",
        "",
        "What one has to read to know what a contract says: the definitions that its clauses name, and that these name, down to the kit's own. Made by `python3 tools/trusted.py --page > docs/READING.md`; `.ci/run` refuses more than the headings say. Crates stand in reading order, each behind those that it uses; behind a file are the definitions and the lines of code that count in it, from its head on. Of an `impl Model` its `Value` counts: no clause says how the value arises. `docs/PROMISES.md` says in words what they promise.",
    ]
    for name, found in questions(tree).items():
        said += ["", heading(name, found), ""]
        for crate in in_order():
            here = collections.defaultdict(list)
            for it in found:
                if it.crate == crate:
                    here[it.file.split("/", 1)[1]].append(it)
            if here:
                rows = [f"`{file}` {sum(it.kind != 'module' for it in some)}, {sum(it.code() for it in some)}" for file, some in sorted(here.items())]
                said.append(f"- **{crate}**: " + "; ".join(rows))
    return "\n".join(said) + "\n"


def larger(tree):
    """Where there is more to trust than the page says."""
    with open(PAGE) as file:
        text = file.read()
    for name, found in questions(tree).items():
        at = re.search(re.escape(f"## Behind {name}: ") + r"(\d+) definitions, (\d+) lines; of the machine and the table (\d+), (\d+)", text)
        if not at:
            yield f"docs/READING.md has no section on {name}"
        elif any(now > then for now, then in zip(counts(found), map(int, at.groups()))):
            yield f"docs/READING.md says less than one has to trust: {heading(name, found)[3:]}"


if __name__ == "__main__":
    tree = Tree()
    if sys.argv[1:] == ["--page"]:
        sys.stdout.write(page(tree))
    elif sys.argv[1:] == ["--check"]:
        more = list(larger(tree))
        print("\n".join(more), end="\n" if more else "")
        sys.exit(bool(more))
    elif sys.argv[1:]:
        sys.exit(__doc__)
    else:
        print("\n".join(heading(name, found)[3:] for name, found in questions(tree).items()))
