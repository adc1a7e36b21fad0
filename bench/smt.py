#!/usr/bin/env python3
"""An SMT-LIB 2 script that asks of each group of a specification what `rsml check` asks, for a solver.

    bench/smt.py FILE [numbers|choices]              writes the script on the specification in a file
    bench/smt.py --compare SCRIPT ANSWERS REPORT     compares what a solver answers to a script with the report of `rsml check`
    bench/smt.py --test COUNT SOLVER..               compares what a solver answers with reports that `tools/report_lines.py` works out

The specifications of a test are those of tests/reports, some of examples/, and COUNT random ones, without those of very many worlds.

Components and enumerations are numbers, or with `choices` one truth for each child and value, of which exactly one is true; cells of
ranges are numbers. The first question is whether there is a world at all. Of each group there are two: whether some world that meets
its condition enables none of its members, and whether some such world enables two or more.

A specification is read by `tools/machine_reading.py`, by the sentences of docs/language.md alone. The last line of a comparison is
`N groups alike, M differ, K without an answer`; where one differs its status is 1."""

import math
import subprocess
import sys
import tempfile
from functools import partial
from pathlib import Path

HERE = Path(__file__).resolve().parent
sys.path.insert(0, str(HERE.parent / "tools"))

from random_specifications import random_specification  # noqa: E402
from report_lines import report, stored_reports  # noqa: E402
from state_reading import path_text  # noqa: E402
from text_reading import Texts, cell_text, group_text, instance_text  # noqa: E402

EXAMPLES = ["alerter", "alerter_mended", "lamp"]
MOST_WORLDS = 100_000
ENCODINGS = ["numbers", "choices"]


def symbol(*words):
    return f"|{' '.join(words)}|"


def call(function, terms):
    """A function of truths: `and` and `or` of one is that one, and of none what leaves others as they are."""
    terms = list(terms)
    if not terms:
        return "true" if function == "and" else "false"
    return f"({function} {' '.join(terms)})" if len(terms) > 1 else terms[0]


def negated(term):
    return f"(not {term})"


def literal(number):
    return str(number) if number >= 0 else f"(- {-number})"


def related(left, relation, right):
    return negated(f"(= {left} {right})") if relation == "!=" else f"({relation} {left} {right})"


def two_of(members):
    """That at least two are true: linear in how many there are."""
    if len(members) < 2:
        return "false"
    some, two, opened = members[0], "false", []
    for at, member in enumerate(members[1:]):
        opened.append(f"(let ((some{at} (or {some} {member})) (two{at} (or {two} (and {some} {member})))) ")
        some, two = f"some{at}", f"two{at}"
    return "".join(opened) + two + ")" * len(opened)


class Grouped(Texts):
    """A specification with its groups, found in less time."""

    def __init__(self, text):
        super().__init__(text)
        self.place = {path: at for at, path in enumerate(self.states)}

    def groups(self):
        """The same as those of a machine, found by the sources of each event."""
        sources, below = {}, {}
        for at, it in enumerate(self.transitions):
            sources.setdefault((it[4], it[2]), []).append(at)
            for depth in range(1, len(it[2])):
                below.setdefault((it[4], it[2][:depth]), set()).add(it[2])
        found = []
        for path in self.states:
            for event in self.events:
                if (event, path) in sources:
                    line = [it for depth in range(1, len(path) + 1) for it in sources.get((event, path[:depth]), [])]
                    found.append(("state", path, event, below.get((event, path), set()), [("t", at) for at in sorted(line)]))
        return found + self.other_groups()

    def other_groups(self):
        kept, self.states = self.states, []
        others = super().groups()
        self.states = kept
        return others


class Script(Grouped):
    """The lines of a script on a specification."""

    def __init__(self, text, encoding="numbers"):
        super().__init__(text)
        self.by_choices = encoding == "choices"
        self.lines = ["(set-logic QF_LIA)"]
        self.put_cells()
        self.put_states()
        self.put_definitions()
        self.put_members()
        self.lines.append("(check-sat)")
        for group in self.groups():
            self.put_group(group)

    # What is declared and defined.

    def define(self, name, truth):
        self.lines.append(f"(define-fun {name} () Bool {truth})")
        return name

    def declare_number(self, name, low, high):
        self.lines.append(f"(declare-const {name} Int)")
        self.lines.append(f"(assert (and (<= {literal(low)} {name}) (<= {name} {literal(high)})))")

    def declare_choice(self, names):
        """Exactly one of these is true. Of two, the second is the negation of the first."""
        self.lines += [f"(declare-const {name} Bool)" for name in names[: 1 if len(names) == 2 else None]]
        if len(names) == 2:
            self.define(names[1], negated(names[0]))
            return
        self.lines.append(f"(assert {call('or', names)})")
        apart = [f"(not (and {one} {other}))" for at, one in enumerate(names) for other in names[at + 1 :]]
        self.lines += [f"(assert {it})" for it in apart]

    def put_cells(self):
        for cell in self.cells:
            values, (low, high) = self.names_of_cell(cell), self.ends[self.type_of[cell[0][0]]]
            if values and self.by_choices:
                self.declare_choice([symbol("cell", cell_text(cell), "=", value) for value in values])
            else:
                self.declare_number(symbol("cell", cell_text(cell)), low, high)

    def names_of_cell(self, cell):
        return self.names_of.get(self.type_of[cell[0][0]], [])

    def put_states(self):
        """A state is active where the state around it is, and that has chosen it where it is a component."""
        for path in self.components:
            if self.by_choices:
                self.declare_choice([self.choice(path, at) for at in range(len(self.components[path]))])
            else:
                self.declare_number(symbol("child of", path_text(path)), 0, len(self.components[path]) - 1)
        for path in self.states:
            outer, step = path[:-1], path[-1]
            around = [symbol("in", path_text(outer))] if outer else []
            chosen = [self.choice(outer, self.components[outer].index(step))] if outer in self.components else []
            self.define(symbol("in", path_text(path)), call("and", around + chosen))

    def choice(self, path, place):
        if self.by_choices:
            return symbol("child of", path_text(path), "is", path_text([self.components[path][place]]))
        return f"(= {symbol('child of', path_text(path))} {place})"

    def put_definitions(self):
        for it in self.definitions:
            name, this = it
            if self.kinds[name] == "macro":
                self.define(symbol("macro", instance_text(it)), self.guard_of(self.content[name], this))
            else:
                for at, (_, guard) in enumerate(self.content[name]):
                    self.define(self.function_case_of(it, at), self.guard_of(guard, this))

    def function_case_of(self, function, at):
        return symbol("function", instance_text(function), "case", str(at + 1))

    def put_members(self):
        """Transitions from one bus share their guard."""
        guards = {}
        for at, (path, ordinal, source, _, _, guard, _, this) in enumerate(self.transitions):
            if (path, ordinal) not in guards:
                name = symbol("guard", path_text(path), str(ordinal))
                guards[path, ordinal] = self.define(name, self.guard_of(guard, this))
            self.define(self.member("t", at), call("and", [symbol("in", path_text(source)), guards[path, ordinal]]))
        for at, ((_, this), _, _, guard, _) in enumerate(self.cases):
            self.define(self.member("c", at), self.guard_of(guard, this))

    def member(self, kind, number):
        if kind == "f":
            return self.function_case_of(self.definitions[number[0]], number[1])
        return symbol("transition" if kind == "t" else "send case", str(number))

    # Truths.

    def guard_of(self, guard, this):
        if guard is None:
            return "true"
        truths = [self.phrase_of(phrase, this, ()) for phrase, _ in guard]
        columns = zip(*[cells for _, cells in guard])
        return call("or", [self.column_of(column, truths) for column in columns])

    def column_of(self, column, truths):
        asked = [(cell, truth) for cell, truth in zip(column, truths) if cell != "."]
        return call("and", [truth if cell == "T" else negated(truth) for cell, truth in asked])

    def phrase_of(self, phrase, this, bound):
        match phrase:
            case "some", variable, count, inner:
                return call("or", [self.phrase_of(inner, this, (variable, at)) for at in range(1, count + 1)])
            case "every", variable, count, inner:
                return call("and", [self.phrase_of(inner, this, (variable, at)) for at in range(1, count + 1)])
            case "in", steps:
                return symbol("in", path_text([self.instance(it, this, bound) for it in steps]))
            case "macro", reference:
                return symbol("macro", instance_text(self.instance(reference, this, bound)))
            case "function", reference, relation, constant:
                function = self.instance(reference, this, bound)
                return self.function_is(function, relation, (constant, this, bound))
            case "compare", left, relation, right:
                return self.comparison((left, this, bound), relation, (right, this, bound))

    def function_is(self, function, relation, constant):
        """Some case with a true guard has a value that compares so."""
        name, index = function
        values = [self.comparison((value, index, ()), relation, constant) for value, _ in self.content[name]]
        return call("or", [call("and", [self.function_case_of(function, at), it]) for at, it in enumerate(values)])

    # Comparisons of two sums, each with the index and the variable that stand around it.

    def comparison(self, left, relation, right):
        values = self.names_of_sum(left[0])
        if values and self.by_choices:
            same = self.same_value(values, left, right)
            return negated(same) if relation == "!=" else same
        return related(self.sum_of(*left), relation, self.sum_of(*right))

    def same_value(self, values, left, right):
        truths = [[self.is_value(it, number, value) for it in (left, right)] for number, value in enumerate(values)]
        kept = [[it for it in both if it != "true"] for both in truths if "false" not in both]
        return call("or", [call("and", both) for both in kept])

    def is_value(self, sum_, number, value):
        terms, this, bound = sum_
        _, what = terms[0][1]
        if what[0] in self.constants:
            return "true" if self.constants[what[0]] == number else "false"
        return symbol("cell", cell_text(self.cell_of(terms[0][1], this, bound)), "=", value)

    def cell_of(self, operand, this, bound):
        kind, what = operand
        return self.instance(what, this, bound), kind == "previous"

    def sum_of(self, terms, this, bound):
        parts = [f"(- {it})" if minus else it for minus, operand in terms for it in [self.term_of(operand, this, bound)]]
        return f"(+ {' '.join(parts)})" if len(parts) > 1 else parts[0]

    def term_of(self, operand, this, bound):
        kind, what = operand
        if kind == "number":
            return literal(what)
        if kind == "named" and what[0] in self.constants:
            return literal(self.constants[what[0]])
        return symbol("cell", cell_text(self.cell_of(operand, this, bound)))

    # Groups.

    def condition(self, group):
        kind, path, _, below, _ = group
        if kind != "state":
            return []
        return [symbol("in", path_text(path)), *[negated(symbol("in", path_text(it))) for it in sorted(below, key=self.place.get)]]

    def put_group(self, group):
        members = [self.member(*it) for it in group[4]]
        self.lines.append(f"; group {group_text(self, group)}")
        for question in (negated(call("or", members)), two_of(members)):
            self.lines.append("(push 1)")
            self.lines += [f"(assert {it})" for it in [*self.condition(group), question]]
            self.lines += ["(check-sat)", "(pop 1)"]


def script(text, encoding="numbers"):
    return "\n".join([*Script(text, encoding).lines, ""])


# What a solver answers, and what a report says.


def names_of_groups(written):
    return [line.removeprefix("; group ") for line in written.splitlines() if line.startswith("; group ")]


def answered(answers, count):
    """The verdicts that a solver's answers give, with None where there is no answer."""
    given = answers.split("\n")
    given = [it for it in given if it in ("sat", "unsat", "unknown")]
    given += ["unknown"] * (2 * count + 1 - len(given))
    assert given[0] != "unsat", "the solver finds no world"
    return [verdict(none, two) for none, two in zip(given[1::2], given[2::2])]


def verdict(none, two):
    if none == "sat":
        return "none"
    if "unknown" in (none, two):
        return None
    return "two" if two == "sat" else "sound"


def reported(text):
    """The groups of which a report has a finding."""
    findings = [line.split(" ", 1) for line in text.splitlines() if line.startswith(("none ", "two "))]
    return {group: kind for kind, group in findings}


def differences(written, answers, text):
    """How many groups are alike, those that differ, and how many have no answer."""
    names, findings = names_of_groups(written), reported(text)
    alike, open_, other = 0, 0, []
    if f"groups {len(names)}" not in text.splitlines():
        other.append(f"there are {len(names)} groups, and the report has other ones")
    other += [f"{name} is in the report alone" for name in findings.keys() - set(names)]
    for name, found in zip(names, answered(answers, len(names))):
        wanted = findings.get(name, "sound")
        alike, open_ = alike + (found == wanted), open_ + (found is None)
        if found not in (wanted, None):
            other.append(f"{name}: {wanted} in the report, {found} by the solver")
    return alike, other, open_


def tell(alike, other, open_):
    print(f"{alike} groups alike, {other} differ, {open_} without an answer")
    return int(other > 0)


def compare(written, answers, text):
    alike, other, open_ = differences(*[Path(it).read_text(encoding="utf-8") for it in (written, answers, text)])
    print(*other, sep="\n", end="\n" if other else "")
    return tell(alike, len(other), open_)


# Tests.


def test_texts(count):
    for name, text, _ in stored_reports("reports/*"):
        yield name, text
    for name in EXAMPLES:
        yield name, (HERE.parent / "examples" / f"{name}.rsml").read_text(encoding="utf-8")
    for seed in range(count):
        text = random_specification(seed)
        if count_of_worlds(Grouped(text)) <= MOST_WORLDS:
            yield f"seed {seed}", text


def count_of_worlds(it):
    ends = [it.ends[it.type_of[name]] for (name, _), _ in it.cells]
    return math.prod([*map(len, it.components.values()), *[high - low + 1 for low, high in ends]])


def asked(written, solver):
    with tempfile.NamedTemporaryFile("w", suffix=".smt2", encoding="utf-8") as file:
        file.write(written)
        file.flush()
        return subprocess.run([*solver, file.name], capture_output=True, check=False).stdout.decode()


def test(count, solver, writers):
    """Compares what a solver answers to each of these ways to write the questions. One that writes nothing is left out."""
    totals, findings = [0, 0, 0], 0
    for name, text in test_texts(count):
        wanted = report(text)
        findings += len(reported(wanted))
        assert Grouped(text).groups() == Texts(text).groups(), name
        for way, writer in writers.items():
            written = writer(text)
            if written is None:
                continue
            answers = asked(written, solver)
            assert "error" not in answers, answers
            alike, other, open_ = differences(written, answers, wanted)
            for line in other:
                print(f"{name}, {way}: {line}")
            totals = [sum(it) for it in zip(totals, (alike, len(other), open_))]
    print(f"{findings} findings")
    return tell(*totals)


def main():
    if sys.argv[1] == "--compare":
        return compare(*sys.argv[2:5])
    if sys.argv[1] == "--test":
        return test(int(sys.argv[2]), sys.argv[3:], {it: partial(script, encoding=it) for it in ENCODINGS})
    print(script(Path(sys.argv[1]).read_text(encoding="utf-8"), *sys.argv[2:3]), end="")
    return 0


if __name__ == "__main__":
    sys.exit(main())
