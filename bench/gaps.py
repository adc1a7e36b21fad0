#!/usr/bin/env python3
"""What `gaps` writes of a specification, found by a solver.

    bench/gaps.py FILE N OUTPUT [SOLVER..]     compares it with what `gaps FILE N` has written to OUTPUT, and writes the milliseconds

The solver (`z3 -in`) is asked as a person would ask it: for a world in which a group fails, which is made least part by part; each part is
then widened as far as all worlds of the column fail, ranges by halving; and the column is taken away. The questions on the members of
groups are those of `smt.py`. The time is that of the solver's answers, without the reading of the specification. Parts that a group does
not read are asked for too. The status is 1 where the columns differ."""

import subprocess
import sys
import time
from pathlib import Path

import smt
from gap_lines import row_lines
from state_reading import path_text
from text_reading import cell_text, group_text


class Script(smt.Script):
    """A specification as a script, whose parts, components and then cells, are numbers."""

    def __init__(self, text):
        super().__init__(text)
        self.symbols = [smt.symbol("child of", path_text(path)) for path in self.components]
        self.symbols += [smt.symbol("cell", cell_text(cell)) for cell in self.cells]
        self.bounds = [(0, len(children) - 1) for children in self.components.values()]
        self.bounds += [self.ends_of(cell) for cell in self.cells]
        self.are_names = [True] * len(self.components) + [bool(self.names_of_cell(cell)) for cell in self.cells]

    def ends_of(self, cell):
        return self.ends[self.type_of[cell[0][0]]]

    def prelude(self):
        return self.lines[: self.lines.index("(check-sat)")]

    def failing(self, group):
        """The truths that a group fails by no member that is enabled, and by two."""
        members = [self.member(*it) for it in group[4]]
        for kind, question in (("none", smt.negated(smt.call("or", members))), ("two", smt.two_of(members))):
            yield kind, smt.call("and", [*self.condition(group), question])

    def within(self, at, low, high):
        if low == high:
            return f"(= {self.symbols[at]} {smt.literal(low)})"
        return f"(and (<= {smt.literal(low)} {self.symbols[at]}) (<= {self.symbols[at]} {smt.literal(high)}))"

    def column(self, parts):
        wide = [it for it in enumerate(parts) if it[1] != self.bounds[it[0]]]
        return smt.call("and", [self.within(at, *part) for at, part in wide])


class Solver:
    def __init__(self, command):
        self.process = subprocess.Popen(command, stdin=subprocess.PIPE, stdout=subprocess.PIPE, text=True)

    def tell(self, *lines):
        self.process.stdin.writelines(f"{line}\n" for line in lines)

    def line(self):
        self.process.stdin.flush()
        return self.process.stdout.readline().strip()

    def is_sat(self, *truths):
        self.tell("(push 1)", *[f"(assert {it})" for it in truths], "(check-sat)", "(pop 1)")
        answer = self.line()
        if answer not in ("sat", "unsat"):
            raise SystemExit(f"the solver says: {answer}")
        return answer == "sat"


def first(low, high, holds):
    """The least number from which on it holds, by halving; it holds at the high one."""
    while low < high:
        middle = (low + high) // 2
        low, high = (low, middle) if holds(middle) else (middle + 1, high)
    return low


def least_world(it, solver, rest):
    parts = []
    for at, (low, high) in enumerate(it.bounds):
        fixed = [rest, it.column([*parts, *it.bounds[at:]])]
        number = first(low, high, lambda most, at=at, low=low, fixed=fixed: solver.is_sat(*fixed, it.within(at, low, most)))
        parts.append((number, number))
    return parts


def widened(it, solver, rest, world):
    parts = list(world)
    for at, (low, high) in enumerate(it.bounds):

        def lies(part, at=at):
            return not solver.is_sat(smt.negated(rest), it.column([*parts[:at], part, *parts[at + 1 :]]))

        own, _ = world[at]
        if it.are_names[at]:
            parts[at] = (low, high) if lies((low, high)) else (own, own)
            continue
        above = high if lies((own, high)) else first(own, high, lambda number, own=own, lies=lies: not lies((own, number))) - 1
        below = first(low, own, lambda number, above=above, lies=lies: lies((number, above)))
        parts[at] = (below, above)
    return parts


def written_columns(it, solver, set_, most):
    rest = set_
    for number in range(1, most + 1):
        if not solver.is_sat(rest):
            return
        column = widened(it, solver, rest, least_world(it, solver, rest))
        rest = f"(and {rest} {smt.negated(it.column(column))})"
        yield f"  column {number}"
        yield from row_lines(it, [range(low, high + 1) for low, high in column])
    if solver.is_sat(rest):
        yield "  more"


def gaps(it, solver, most):
    lines, count = [f"specification {it.tokens[1]}"], 0
    for group in it.groups():
        for kind, set_ in it.failing(group):
            if solver.is_sat(set_):
                count += 1
                lines += [f"{kind} {group_text(it, group)}", *written_columns(it, solver, set_, most)]
                break
    return "".join(f"{line}\n" for line in [*lines, f"gaps {count}"])


def main():
    file, most, output, *command = sys.argv[1:]
    it = Script(Path(file).read_text(encoding="utf-8"))
    start = time.monotonic()
    solver = Solver(command or ["z3", "-in"])
    solver.tell(*it.prelude())
    found = gaps(it, solver, int(most))
    print(f"{1000 * (time.monotonic() - start):.1f}")
    return int(found != Path(output).read_text(encoding="utf-8"))


if __name__ == "__main__":
    sys.exit(main())
