#!/usr/bin/env python3
"""The decision diagrams that `rsml check` makes of a specification without sums, as steps for another package of diagrams.

    bench/diagram_steps.py FILE                    writes the steps for the specification in a file
    bench/diagram_steps.py --test COUNT PROGRAM    compares what a program answers to steps with reports, as `smt.py --test` does

Its levels, their weights and their order are those of the crates `level_order`, `world_levels` and `spelled_numbers`, and the steps are
those of `phrase_diagrams`, `guard_encode` and `group_verdicts`, one by one. Each line makes a function of earlier ones. They are
numbered from 2 on; 0 is false and 1 is true.

    levels N               how many levels there are
    sum ROOM L:W ..        the weights W of the levels L that are true sum to at most ROOM; of `-L:W` where the level is false
    and F G, or F G        both, or one of them
    less F G               the first, and not the second
    not F
    ; group TEXT           the following two questions are of this group
    ask F                  whether the function is false everywhere; it makes none

The status is 3 where a comparison has several inputs, or one twice: for such a comparison `rsml check` has a level of its own."""

import sys
from pathlib import Path

HERE = Path(__file__).resolve().parent
sys.path.insert(0, str(HERE))

from smt import Grouped, group_text, test  # noqa: E402

FALSE, TRUE = 0, 1
# Supports of more parts are left out; in small ones a part that is read with many others is left out.
MOST_PARTS, SMALL, MANY = 64, 16, 24


class SeveralInputs(Exception):
    pass


def once(items):
    """Each once, in order, and of too many for a support only one too many."""
    return tuple(dict.fromkeys(items))[: MOST_PARTS + 1]


class Steps(Grouped):
    """A specification with its phrases by numbers, the order of its levels, and the steps that make its diagrams."""

    def __init__(self, text):
        super().__init__(text)
        self.component_of = {path: part for part, path in enumerate(self.components)}
        self.part_of_cell = {cell: len(self.components) + at for at, cell in enumerate(self.cells)}
        self.phrases = {}
        self.number_phrases()
        self.bits = self.levels_of(self.order())
        self.steps, self.made = [], {}
        self.put_all()

    # Phrases by numbers: each once, after those that it names.

    def number_phrases(self):
        self.tables = {}
        for name, this in self.definitions:
            content = self.content[name]
            guards = [content] if self.kinds[name] == "macro" else [guard for _, guard in content]
            self.tables[name, this] = [self.ground_table(guard, this) for guard in guards]
        self.guards = [self.ground_table(it[5], it[7]) for it in self.transitions]
        self.case_guards = [self.ground_table(it[3], it[0][1]) for it in self.cases]

    def ground_table(self, guard, this):
        """None where it is always true."""
        return guard and [(self.phrase_number(phrase, this), cells) for phrase, cells in guard]

    def phrase_number(self, phrase, this, bound=()):
        return self.phrases.setdefault(self.ground(phrase, this, bound), len(self.phrases))

    def ground(self, phrase, this, bound):
        match phrase:
            case ("some" | "every") as which, variable, count, inner:
                return which, tuple(self.phrase_number(inner, this, (variable, at)) for at in range(1, count + 1))
            case "in", steps:
                return "in", tuple(self.instance(it, this, bound) for it in steps)
            case "macro", reference:
                return "macro", self.instance(reference, this, bound)
            case "function", reference, relation, constant:
                number = sum(-it if minus else it for minus, it in self.ground_sum(constant, this, bound))
                return "function", self.instance(reference, this, bound), relation, number
            case "compare", left, relation, right:
                return "compare", self.ground_sum(left, this, bound), relation, self.ground_sum(right, this, bound)

    def ground_sum(self, terms, this, bound):
        return tuple((minus, self.ground_operand(it, this, bound)) for minus, it in terms)

    def ground_operand(self, operand, this, bound):
        """A number, or a cell."""
        kind, what = operand
        if kind == "number":
            return what
        if kind == "named" and what[0] in self.constants:
            return self.constants[what[0]]
        return self.instance(what, this, bound), kind == "previous"

    # What is read together.

    def line(self, path):
        """The components around a state, from the top inwards."""
        return [self.component_of[path[:at]] for at in range(1, len(path)) if path[:at] in self.component_of]

    def read_by(self, table, reads):
        return [part for phrase, _ in table or [] for part in reads[phrase]]

    def cells_in(self, terms):
        return [self.part_of_cell[it] for _, it in terms if isinstance(it, tuple)]

    def all_reads(self):
        """What phrases and definitions read: a list for each phrase, and all lists, one of a definition only once."""
        reads, of_definition, lists = [], {}, []
        for kind, *rest in self.phrases:
            if kind in ("macro", "function"):
                new = rest[0] not in of_definition
                if new:
                    of_definition[rest[0]] = self.read_by_definition(rest[0], reads)
                found = of_definition[rest[0]]
            else:
                new, found = True, self.read_by_phrase(kind, rest, reads)
            reads.append(found)
            lists += [found] if new else []
        for it in self.definitions:
            if it not in of_definition:
                lists.append(once(part for table in self.tables[it] for part in self.read_by(table, reads)))
        return reads, lists

    def read_by_definition(self, it, reads):
        if self.kinds[it[0]] == "macro":
            return once(self.read_by(self.tables[it][0], reads))
        values = [self.ground_sum(value, it[1], ()) for value, _ in self.content[it[0]]]
        return once(part for table, value in zip(self.tables[it], values) for part in self.read_by(table, reads) + self.cells_in(value))

    def read_by_phrase(self, kind, rest, reads):
        if kind == "in":
            return once(self.line(rest[0]))
        if kind == "compare":
            cells = self.cells_in(rest[0] + rest[2])
            if len(cells) > 1:
                raise SeveralInputs
            return once(cells)
        return once(part for phrase in rest[0] for part in reads[phrase])

    def supports(self):
        reads, lists = self.all_reads()
        found = [once(self.line(it[2]) + self.read_by(table, reads)) for it, table in zip(self.transitions, self.guards)]
        found += [once(self.read_by(table, reads)) for table in self.case_guards]
        found += lists
        for kind, path, _, below, _ in self.groups():
            if kind == "state":
                found.append(once(part for it in [path, *sorted(below, key=self.place.get)] for part in self.line(it)))
        return self.without_shared(sorted([it for it in found if 0 < len(it) <= MOST_PARTS], key=len))

    def without_shared(self, supports):
        neighbours = {}
        for support in supports:
            if len(support) <= SMALL:
                for part in support:
                    neighbours.setdefault(part, set()).update(support)
        shared = {part for part, others in neighbours.items() if len(others) > MANY}
        found = []
        for support in supports:
            found += [(part,) for part in support if part in shared]
            found.append(tuple(part for part in support if part not in shared))
        return sorted([it for it in found if it], key=len)

    # The order of the levels, and the weights that each part takes.

    def order(self):
        """The parts: of each two neighbours in a support the sequence of the second is put behind that of the first."""
        sequence_of = {}
        for support in self.supports():
            for part in support:
                sequence_of.setdefault(part, [part])
            for one, other in zip(support, support[1:]):
                first, second = sequence_of[one], sequence_of[other]
                if first is not second:
                    first += second
                    for part in second:
                        sequence_of[part] = first
        count = len(self.component_of) + len(self.cells)
        written = [part for number in range(count) for part in sequence_of.get(number, [])]
        return [*dict.fromkeys(written), *[part for part in range(count) if part not in sequence_of]]

    def levels_of(self, order):
        """For each part its levels with their weights: each weight is half of what the part lacks, rounded up."""
        lacks = [len(children) - 1 for children in self.components.values()]
        lacks += [high - low for low, high in map(self.ends_of, self.cells)]
        bits, self.count = {}, 0
        for part in order:
            bits[part] = []
            while lacks[part]:
                weight = (lacks[part] + 1) // 2
                bits[part].append((self.count, weight))
                lacks[part] -= weight
                self.count += 1
        return bits

    def ends_of(self, cell):
        return self.ends[self.type_of[cell[0][0]]]

    # Steps.

    def step(self, *words):
        """The number of the function that a step makes."""
        self.steps.append(" ".join(map(str, words)))
        self.made_so_far += 1
        return self.made_so_far + 1

    def both(self, f, g):
        return self.step("and", f, g)

    def either(self, f, g):
        return self.step("or", f, g)

    def up_to(self, bits, minus, bound):
        """Where the weights, taken off where `minus`, sum to at most the bound."""
        total = sum(weight for _, weight in bits)
        room = bound + (total if minus else 0)
        if room < 0:
            return FALSE
        if room >= total:
            return TRUE
        return self.step("sum", room, *[f"{'-' if minus else ''}{level}:{weight}" for level, weight in bits])

    def above(self, bits, minus, bound):
        return self.step("not", self.up_to(bits, minus, bound))

    def compared(self, left, relation, right):
        """The one cell of two sums stands on the left in the end, with a minus where `minus`."""
        terms = [*left, *[(not minus, it) for minus, it in right]]
        cells = [(minus, it) for minus, it in terms if isinstance(it, tuple)]
        base = sum(-it if minus else it for minus, it in [(minus, self.least(it)) for minus, it in terms])
        minus, bits = (cells[0][0], self.bits[self.part_of_cell[cells[0][1]]]) if cells else (False, [])
        return self.related(bits, minus, relation, -base)

    def least(self, operand):
        return self.ends_of(operand)[0] if isinstance(operand, tuple) else operand

    def related(self, bits, minus, relation, number):
        match relation:
            case "<":
                return self.up_to(bits, minus, number - 1)
            case "<=":
                return self.up_to(bits, minus, number)
            case ">":
                return self.above(bits, minus, number)
            case ">=":
                return self.above(bits, minus, number - 1)
            case "=":
                return self.both(self.up_to(bits, minus, number), self.above(bits, minus, number - 1))
            case "!=":
                return self.step("not", self.related(bits, minus, "=", number))

    def chosen(self, bits, place):
        most = self.up_to(bits, False, place)
        return most if place == 0 else self.both(most, self.step("not", self.up_to(bits, False, place - 1)))

    def put_all(self):
        self.made_so_far, self.active, self.diagrams, self.counted = 0, {}, [], {}
        for path in self.states:
            self.active[path] = self.put_state(path)
        for phrase in self.phrases:
            self.diagrams.append(self.put_phrase(*phrase))
        for group in self.groups():
            self.put_group(group)

    def put_state(self, path):
        outer = path[:-1]
        if not outer:
            return TRUE
        if outer not in self.components:
            return self.active[outer]
        place = self.components[outer].index(path[-1])
        return self.both(self.active[outer], self.chosen(self.bits[self.component_of[outer]], place))

    def put_phrase(self, kind, *rest):
        match kind:
            case "in":
                return self.active[rest[0]]
            case "macro":
                return self.put_table(self.tables[rest[0]][0])
            case "some":
                return self.gathered(self.either, FALSE, rest[0])
            case "every":
                return self.gathered(self.both, TRUE, rest[0])
            case "compare":
                return self.compared(*rest)
        name, this = rest[0]
        found = FALSE
        for table, (value, _) in zip(self.tables[name, this], self.content[name]):
            guard = self.put_table(table)
            found = self.either(found, self.both(guard, self.compared(self.ground_sum(value, this, ()), rest[1], ((False, rest[2]),))))
        return found

    def gathered(self, join, start, phrases):
        for phrase in phrases:
            start = join(start, self.diagrams[phrase])
        return start

    def put_table(self, table):
        if table is None:
            return TRUE
        found = FALSE
        for column in zip(*[cells for _, cells in table]):
            here = TRUE
            for cell, (phrase, _) in zip(column, table):
                if cell != ".":
                    here = self.step("and" if cell == "T" else "less", here, self.diagrams[phrase])
            found = self.either(found, here)
        return found

    def enabled(self, member):
        kind, number = member
        if kind == "t":
            guard = self.put_table(self.guards[number])
            return self.both(self.active[self.transitions[number][2]], guard)
        if kind == "c":
            return self.put_table(self.case_guards[number])
        return self.put_table(self.tables[self.definitions[number[0]]][number[1]])

    def count_of(self, members):
        """That some, and that two or more are enabled. What is known after a transition is known for all lines that go through it."""
        known = max((at for at, it in enumerate(members, 1) if it in self.counted), default=0)
        some, two = self.counted[members[known - 1]] if known else (FALSE, FALSE)
        for member in members[known:]:
            enabled = self.enabled(member)
            two = self.either(two, self.both(some, enabled))
            some = self.either(some, enabled)
            if member[0] == "t":
                self.counted[member] = some, two
        return some, two

    def condition(self, group):
        kind, path, _, below, _ = group
        if kind != "state":
            return TRUE
        others = FALSE
        for it in sorted(below, key=self.place.get):
            others = self.either(others, self.active[it])
        return self.both(self.active[path], self.step("not", others))

    def put_group(self, group):
        condition = self.condition(group)
        some, two = self.count_of(group[4])
        self.steps.append(f"; group {group_text(self, group)}")
        self.steps.append(f"ask {self.both(condition, self.step('not', some))}")
        self.steps.append(f"ask {self.both(condition, two)}")


def steps(text):
    """None where a comparison has several inputs."""
    try:
        it = Steps(text)
    except SeveralInputs:
        return None
    return "\n".join([f"levels {it.count}", *it.steps, ""])


def main():
    if sys.argv[1] == "--test":
        return test(int(sys.argv[2]), sys.argv[3:], {"steps": steps})
    written = steps(Path(sys.argv[1]).read_text(encoding="utf-8"))
    print(written or "", end="")
    return 0 if written else 3


if __name__ == "__main__":
    sys.exit(main())
