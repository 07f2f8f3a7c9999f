#!/usr/bin/env python3
"""Writes the answers of an operation without loops from a list of its steps.

    straight.py STEPS..        writes crates/CRATE/proofs/FUNCTION/Answers.antt for each list
    straight.py --print STEPS  prints it instead

The operation is a function that runs steps on a log and ensures
`goes { Does P.peek_gives PROGRAM xt.old result xt.new }`. Its list begins with what it is:

    answers kc_loc acts::check                    the crate, and the function's path in it
    unfolding Rattle.kc_loc.specs.Meaning.{NAME}  definitions that its program needs open
    use Rattle.std.proofs.Common.{sym, ◌∙◌}       imports for the terms below, if any

and then has a line for each step of the program, in order:

    read NAME             `let NAME = xt.get(..)?;`
    write NAME            `xt.set(..)?;`, where NAME is set, then set-2, ..
    write NAME by TERM    the same, where TERM says that a number it names equals the program's;
                          `by` goes with read and call too
    call NAME             `let NAME = f(.., xt)?;` or `f(.., xt)?;` at any f that ensures a `goes`
    call NAME then TERM   the same, where TERM says what stands behind it, as λ a k. k (reply.Bool a):
                          wanted where a is used twice, or is no number
    arm TERM              a branch of a match on what the call above answered, with the equation that says
                          which variant it is; its steps are indented, and the other branch follows
    is TERM               a later number is named by a call: the rest is rewritten by ← TERM
    when true: TERM       the branch of a `cond`, with the proof that the test is true (or false);
                          its steps are indented, and the other branch follows
    in TERM               the arm of a `match` or an `if let`, with the equation of what was matched; its
                          steps are indented, and the next arm follows
    tail NAME [GOAL]      the call of f in the end, without a `?`, at any f that ensures a `goes`
    reply [GOAL]          `Ok(..)`; the goal is returns-GOAL-clause-goes, or returns-clause-goes
    retry [GOAL]          `Err(Stop::Retry)`, likewise
    tail GOAL: TERM       `f(.., xt)` without a `?` at the end, where TERM is what it ensures

NAME is the step's name in the proof: c.in_ok-NAME, and c.in_err-NAME at its exit by `?`. Each `?`
gets an answer too, in the order of the list. Lines that begin with # are comments.
"""

import argparse
import pathlib
import re
import sys

CHAIN = "Rattle.kc_xt.proofs.Chain"
ASKS = ("read", "write", "call")


class Refused(Exception):
    """A list of steps that makes no sense."""


class Operation:
    """What a list of steps says."""

    def __init__(self):
        self.crate = ""
        self.path = []
        self.unfolding = []
        self.uses = []
        self.lines = []

    def module(self):
        return ".".join([f"Rattle.{self.crate}.proofs", *self.path, "Goals"])

    def file(self, top):
        return top.joinpath("crates", self.crate, "proofs", *self.path, "Answers.antt")


def parse(text):
    """The operation of a list; its steps are pairs of an indentation and the words."""
    operation = Operation()
    for line in text.splitlines():
        words = line.strip()
        if not words or words.startswith("#"):
            continue
        head, _, rest = words.partition(" ")
        if head == "answers":
            operation.crate, path = rest.split()
            operation.path = path.split("::")
        elif head == "unfolding":
            operation.uses.append(rest)
            operation.unfolding += names_of(rest)
        elif head == "use":
            operation.uses.append(rest)
        else:
            operation.lines.append((len(line) - len(line.lstrip()), head, rest.strip()))
    if not operation.crate:
        raise Refused("no line 'answers CRATE FUNCTION'")
    return operation


def names_of(use):
    """The names that an import brings."""
    return [name.strip() for name in use[use.index("{") + 1 : use.index("}")].split(",")]


def in_brackets(term):
    return f"({term})" if " " in term else term


def goes(name, arm):
    """What a call's step ensures, in its Ok or its Err."""
    name, equation, behind_it = parts_of(name)
    fact = f"c.{arm}-{name}.ensures.goes"
    if equation:
        fact = f"(rw {in_brackets(equation)} at {fact})"
    return f"{{g = {behind_it}}} {fact}" if behind_it else fact


def parts_of(step):
    """The step's name, the equation after its `by`, and the term after its `then`."""
    step, _, behind_it = step.partition(" then ")
    name, _, equation = step.partition(" by ")
    return name.strip(), equation.strip(), behind_it.strip()


class Writer:
    """Walks the steps, and writes an answer for each exit and each return."""

    def __init__(self, operation):
        self.operation = operation
        self.answers = []
        self.questions = 0

    def answer(self, goal, term):
        unfolding = "".join(f"unfolding {name}\n" for name in self.operation.unfolding)
        self.answers.append(f"pub {goal} : goal.{goal}\n{unfolding}{goal} g c = {term}\n")

    def walk(self, lines, before):
        """The steps of one block, behind the steps `before`, which are functions from terms to terms."""
        block = lines[0][0] if lines else 0
        called = ""
        while lines and lines[0][0] == block:
            _, head, rest = lines.pop(0)
            if head in ASKS:
                self.exit(head, rest, before)
                before = [*before, f"then_{head} {goes(rest, 'in_ok')}"]
                called = rest
            elif head == "is":
                before = [*before, f"rw (← {rest})"]
            elif head == "when":
                test, _, proof = (part.strip() for part in rest.partition(":"))
                self.walk(inner_of(lines, block), [*before, f"does_{test} _ _ _ {in_brackets(proof)}"])
            elif head == "in":
                self.walk(inner_of(lines, block), [*before, f"rw {in_brackets(rest)}"])
            elif head == "arm":
                name, _, behind_it = parts_of(called)
                step = f"{name} by {rest} then {behind_it}"
                self.walk(inner_of(lines, block), [*before[:-1], f"then_call {goes(step, 'in_ok')}"])
            elif head == "tail" and ":" in rest:
                goal, _, term = (part.strip() for part in rest.partition(":"))
                self.answer(returns(goal), behind(before, term))
            elif head == "tail":
                name, _, goal = rest.partition(" ")
                self.answer(returns(goal), behind(before, f"c.{name}.ensures.goes"))
            elif head in ("reply", "retry"):
                self.answer(returns(rest), behind(before, f"does_{head}"))
            else:
                raise Refused(f"no such step: {head}")
        if lines:
            raise Refused(f"a step is indented, and no 'when' stands above it: {lines[0][1]}")

    def exit(self, head, rest, before):
        name = parts_of(rest)[0]
        residual = f"c.from_residual-in_err-{name}" if self.questions else "c.from_residual"
        self.questions += 1
        stop = behind(before, f"stop_{head} {goes(rest, 'in_err')}")
        self.answer(f"returns-in_err-{name}-clause-goes", f"exits {residual}.ensures.1 {in_brackets(stop)}")


def inner_of(lines, block):
    """Takes the steps that are indented below a block's line."""
    inner = []
    while lines and lines[0][0] > block:
        inner.append(lines.pop(0))
    return inner


def returns(branch):
    """The goal at a return, by the name of its branch."""
    return f"returns-{branch}-clause-goes" if branch else "returns-clause-goes"


def behind(before, last):
    """The last term behind the steps before it."""
    for step in reversed(before):
        last = f"{step} {in_brackets(last)}"
    return last


def answers_of(operation):
    """The text of the Answers.antt."""
    writer = Writer(operation)
    writer.walk(list(operation.lines), [])
    body = "\n".join(writer.answers)
    lemmas = r"exits|then_read|then_write|then_call|stop_read|stop_write|stop_call|does_reply|does_retry|does_true|does_false"
    used = dict.fromkeys(re.findall(rf"\b(?:{lemmas})\b", body))
    uses = [f"{CHAIN}.{{{', '.join(used)}}}", *operation.uses]
    head = "".join(f"use {use}\n" for use in uses)
    return f"{head}use {operation.module()} as goal\n\n{body}"


def main():
    parser = argparse.ArgumentParser(description=__doc__, formatter_class=argparse.RawDescriptionHelpFormatter)
    parser.add_argument("steps", nargs="+", type=pathlib.Path, help="a list of steps")
    parser.add_argument("--print", action="store_true", help="print the answers, and write no file")
    options = parser.parse_args()
    top = pathlib.Path(__file__).resolve().parent.parent
    for steps in options.steps:
        try:
            operation = parse(steps.read_text(encoding="utf-8"))
            text = answers_of(operation)
        except Refused as refused:
            sys.exit(f"{steps}: {refused}")
        if options.print:
            print(text, end="")
            continue
        file = operation.file(top)
        file.parent.mkdir(parents=True, exist_ok=True)
        file.write_text(text, encoding="utf-8")


if __name__ == "__main__":
    main()
