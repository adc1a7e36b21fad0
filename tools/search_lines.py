#!/usr/bin/env python3
"""The report on a specification, worked out by a search through regions of its worlds: for specifications with more worlds than can be
tried one by one.

    tools/search_lines.py                 compares the reports of the folders of examples/, and those of `fixed` and `wide` in tests/reports
    tools/search_lines.py FILE            writes the report on the specification in a file
    tools/search_lines.py --random COUNT  compares COUNT random specifications of at most 20,000 worlds with what `report_lines.py` works
                                          out by trying all worlds

What a group asks is a formula over children of components and over comparisons of sums with numbers. A search splits a region where
some leaf of the formula is undecided: the children of a component, or the span of a sum. Where the formula is true all over a region,
cells are looked for that give each sum a number of its span. The least world is found part by part, by whether there is one with a
lesser part. Each world that is found is judged once more by `machine_reading.py`. The last line of a comparison is `N reports right, M
wrong`."""

import itertools
import sys
from pathlib import Path

from cases import cases_of, text_of
from machine_reading import RELATIONS
from random_specifications import random_specification
from report_lines import TESTS, TOP, Reading, report
from trace_lines import worlds

EXAMPLES = TOP / "examples"
OPPOSITE = {"<": ">=", ">=": "<", ">": "<=", "<=": ">", "=": "!=", "!=": "="}
MIRRORED = {"<": ">", ">": "<", "<=": ">=", ">=": "<=", "=": "=", "!=": "!="}
FAR = 10**12
MOST_WORLDS = 20_000


# Formulas: a truth, ("child", component, child), ("sum", terms, relation, number), ("not", formula), ("and", formulas), ("or", formulas).
# Terms are pairs of a cell and its weight.


def all_of(formulas):
    parts = [it for it in formulas if it is not True]
    if False in parts:
        return False
    return parts[0] if len(parts) == 1 else ("and", parts) if parts else True


def some_of(formulas):
    parts = [it for it in formulas if it is not False]
    if True in parts:
        return True
    return parts[0] if len(parts) == 1 else ("or", parts) if parts else False


def negated(formula):
    match formula:
        case bool():
            return not formula
        case "not", inner:
            return inner
        case "sum", terms, relation, number:
            return "sum", terms, OPPOSITE[relation], number
    return "not", formula


def two_of(formulas):
    some, two = False, False
    for it in formulas:
        some, two = some_of([some, it]), some_of([two, all_of([some, it])])
    return two


class Searching(Reading):
    """A specification whose groups are judged by a search."""

    def __init__(self, text):
        super().__init__(text)
        self.place = {path: at for at, path in enumerate(self.components)}
        self.cell_place = {cell: at for at, cell in enumerate(self.cells)}
        self.spans = [self.ends_of(cell) for cell in self.cells]
        self.told = {}

    def verdict(self, group):
        """Nothing, or the kind of a finding and its world."""
        members = [self.member(it) for it in group[4]]
        for kind, failing in (("none", all_of(map(negated, members))), ("two", two_of(members))):
            world = Search(self, all_of([self.condition(group), failing])).least()
            if world:
                count = len(self.enabled(world, group))
                assert self.is_met(world, group) and (count == 0 if kind == "none" else count > 1)
                return kind, world
        return None

    def once(self, key, make):
        if key not in self.told:
            self.told[key] = make()
        return self.told[key]

    def condition(self, group):
        kind, path, _, below, _ = group
        return kind != "state" or all_of([self.active(path), *[negated(self.active(it)) for it in sorted(below)]])

    def active(self, path):
        return self.once(path, lambda: all_of(self.chosen(path[:count], path[count]) for count in range(1, len(path))))

    def chosen(self, part, child):
        if part not in self.components:
            return True
        return self.once((part, child), lambda: ("child", self.place[part], self.components[part].index(child)))

    def member(self, member):
        return self.once(member, lambda: self.guard_of(member))

    def guard_of(self, member):
        kind, number = member
        if kind == "t":
            _, _, source, _, _, guard, _, this = self.transitions[number]
            return all_of([self.active(source), self.guard_formula(guard, this)])
        if kind == "c":
            (_, index), _, _, guard, _ = self.cases[number]
            return self.guard_formula(guard, index)
        name, index = self.definitions[number[0]]
        return self.guard_formula(self.content[name][number[1]][1], index)

    def guard_formula(self, guard, this):
        if guard is None:
            return True
        phrases = [self.phrase_formula(phrase, this, ()) for phrase, _ in guard]
        columns = zip(*[cells for _, cells in guard])
        return some_of(
            all_of(it if cell == "T" else negated(it) for it, cell in zip(phrases, column) if cell != ".") for column in columns
        )

    def phrase_formula(self, phrase, this, bound):
        match phrase:
            case ("some" | "every") as which, variable, count, inner:
                each = [self.phrase_formula(inner, this, (variable, at)) for at in range(1, count + 1)]
                return some_of(each) if which == "some" else all_of(each)
            case "in", steps:
                return self.active(tuple(self.instance(it, this, bound) for it in steps))
            case "macro", reference:
                name, index = self.instance(reference, this, bound)
                return self.once((name, index), lambda: self.guard_formula(self.content[name], index))
            case "function", reference, relation, constant:
                name, index = self.instance(reference, this, bound)
                right = self.number(None, constant, this, bound)
                return some_of(
                    all_of([self.guard_formula(guard, index), self.compared(value, index, (), relation, right)])
                    for value, guard in self.content[name]
                )
            case "compare", left, relation, right:
                return self.compared([*left, *[(not minus, it) for minus, it in right]], this, bound, relation, 0)

    def compared(self, terms, this, bound, relation, number):
        """A sum against a number: its constants go to the other side, and its first cell gets a positive weight."""
        weights = {}
        for minus, (kind, what) in terms:
            sign = -1 if minus else 1
            if kind == "number" or kind == "named" and what[0] in self.constants:
                number -= sign * (what if kind == "number" else self.constants[what[0]])
            else:
                cell = self.cell_place[(self.instance(what, this, bound), kind == "previous")]
                weights[cell] = weights.get(cell, 0) + sign
        found = tuple(sorted((cell, weight) for cell, weight in weights.items() if weight))
        if not found:
            return RELATIONS[relation](0, number)
        if found[0][1] < 0:
            return "sum", tuple((cell, -weight) for cell, weight in found), MIRRORED[relation], -number
        return "sum", found, relation, number


def related(span, relation, number):
    """Whether all numbers of a span, or none, are so related to a number: else nothing."""
    low, high = span
    if relation in ("=", "!="):
        equal = True if low == high == number else None if low <= number <= high else False
        return equal if relation == "=" or equal is None else not equal
    ends = RELATIONS[relation](low, number), RELATIONS[relation](high, number)
    return ends[0] if ends[0] == ends[1] else None


def cut(low, relation, number):
    """The number at which a span is cut so that the comparison is decided on a side."""
    if relation in ("<", ">="):
        return number
    return number if relation in ("=", "!=") and low < number else number + 1


class Search:
    """A search for worlds in which a formula is true. A region gives each component some children and each sum a span."""

    def __init__(self, it, formula):
        self.it, self.rows, self.number_of, self.parts, self.sums = it, [], {}, set(), set()
        self.root = self.numbered(formula)
        self.cells = sorted({cell for terms in self.sums for cell, _ in terms})
        self.joined = sorted({cell for terms in self.sums if len(terms) > 1 or terms[0][1] != 1 for cell, _ in terms})

    def numbered(self, formula):
        """The formula with numbers for its parts, each part once and behind those that it has."""
        if isinstance(formula, bool):
            return formula
        if id(formula) not in self.number_of:
            match formula:
                case "child", part, _:
                    row = formula
                    self.parts.add(part)
                case "sum", terms, _, _:
                    row = formula
                    self.sums.add(terms)
                case "not", inner:
                    row = "not", [self.numbered(inner)]
                case kind, parts:
                    row = kind, [self.numbered(x) for x in parts]
            self.rows.append(row)
            self.number_of[id(formula)] = len(self.rows) - 1, formula
        return self.number_of[id(formula)][0]

    def truths(self, children, spans):
        """The truth of each part of the formula all over a region, or nothing where it is undecided."""
        truths = []
        for row in self.rows:
            match row:
                case "child", part, child:
                    truth = child in children[part] if len(children[part]) == 1 or child not in children[part] else None
                case "sum", terms, relation, number:
                    truth = related(spans[terms], relation, number)
                case "not", (inner,):
                    truth = None if truths[inner] is None else not truths[inner]
                case kind, parts:
                    ends = kind == "or"
                    found = [truths[x] for x in parts]
                    truth = ends if ends in found else None if None in found else not ends
            truths.append(truth)
        return truths

    def undecided(self, truths):
        """A leaf that is undecided and that the formula depends on."""
        number = self.root
        while self.rows[number][0] not in ("child", "sum"):
            number = next(x for x in self.rows[number][1] if truths[x] is None)
        return self.rows[number]

    def narrowed(self, cells, spans):
        """The spans of cells and sums without numbers that cannot be: none where a span is empty."""
        cells, spans, is_changed = dict(cells), dict(spans), True
        while is_changed:
            is_changed = False
            for terms in self.sums:
                ends = {cell: sorted((weight * cells[cell][0], weight * cells[cell][1])) for cell, weight in terms}
                least, most = sum(low for low, _ in ends.values()), sum(high for _, high in ends.values())
                low, high = max(spans[terms][0], least), min(spans[terms][1], most)
                if low > high:
                    return None
                is_changed |= (low, high) != spans[terms]
                spans[terms] = low, high
                for cell, weight in terms:
                    below, above = low - most + ends[cell][1], high - least + ends[cell][0]
                    below, above = (below, above) if weight > 0 else (-above, -below)
                    span = max(cells[cell][0], -(-below // abs(weight))), min(cells[cell][1], above // abs(weight))
                    if span[0] > span[1]:
                        return None
                    is_changed |= span != cells[cell]
                    cells[cell] = span
        return cells, spans

    def exists(self, children, cells, spans):
        """Whether the formula is true in some world of a region."""
        region = self.narrowed(cells, spans)
        if region is None:
            return False
        cells, spans = region
        truths = self.truths(children, spans)
        truth = self.root if isinstance(self.root, bool) else truths[self.root]
        if truth is not None:
            return truth and self.has_cells(cells, spans)
        match self.undecided(truths):
            case "child", part, child:
                sides = [{child}, children[part] - {child}]
                return any(self.exists({**children, part: side}, cells, spans) for side in sides)
            case _, terms, relation, number:
                low, high = spans[terms]
                middle = cut(low, relation, number)
                return any(self.exists(children, cells, {**spans, terms: side}) for side in [(low, middle - 1), (middle, high)])

    def has_cells(self, cells, spans):
        """Whether cells in their spans give each sum a number in its span."""
        region = self.narrowed(cells, spans)
        if region is None:
            return False
        cells, spans = region
        if all(low <= sum(weight * cells[cell][0] for cell, weight in terms) <= high for terms, (low, high) in spans.items()):
            return True
        cell = next(x for x in self.joined if cells[x][0] < cells[x][1])
        low, high = cells[cell]
        middle = (low + high) // 2
        return any(self.has_cells({**cells, cell: side}, spans) for side in [(low, middle), (middle + 1, high)])

    def least(self):
        """The least world in which the formula is true, or nothing."""
        children = {part: set(range(len(x))) for part, x in enumerate(self.it.components.values())}
        cells = {cell: self.it.spans[cell] for cell in self.cells}
        spans = {terms: (-FAR, FAR) for terms in self.sums}
        if not self.exists(children, cells, spans):
            return None
        for part in sorted(self.parts):
            children[part] = next(x for child in sorted(children[part]) if self.exists({**children, part: (x := {child})}, cells, spans))
        for cell in self.cells:
            low, high = cells[cell]
            while low < high:
                middle = (low + high) // 2
                is_lower = self.exists(children, {**cells, cell: (low, middle)}, spans)
                low, high = (low, middle) if is_lower else (middle + 1, high)
            cells[cell] = low, low
        chosen = [min(children[part]) if part in self.parts else 0 for part in children]
        return chosen, [cells[at][0] if at in cells else low for at, (low, _) in enumerate(self.it.spans)]


def of_examples():
    """Each stored report of a folder of examples, with its name and what is worked out."""
    for folder in sorted(it for it in EXAMPLES.iterdir() if (it / f"{it.name}.rsml").exists()):
        for name in (folder.name, "mistaken"):
            text = (folder / f"{name}.rsml").read_text(encoding="utf-8")
            yield f"{folder.name}/{name}", (folder / f"{name}.report").read_text(encoding="utf-8"), report(text, Searching)


def of_tests():
    """The same of the case files whose specifications have too many worlds to try them all."""
    for file in "fixed", "wide":
        for case in cases_of(str(TESTS / f"reports/{file}.cases"))[1]:
            (lines,) = case.files.values()
            yield case.place, case.answer.decode(), report(text_of(lines, TESTS).decode(), Searching)


def of_random(count):
    texts = ((seed, random_specification(seed)) for seed in itertools.count())
    small = ((seed, text) for seed, text in texts if worlds(Reading(text)) <= MOST_WORLDS)
    for seed, text in itertools.islice(small, count):
        yield f"seed {seed}", report(text), report(text, Searching)


def compare(reports):
    right = wrong = 0
    for name, wanted, found in reports:
        right, wrong = right + (found == wanted), wrong + (found != wanted)
        if found != wanted:
            print(name, "WANTED", wanted, "FOUND", found, sep="\n")
    print(f"{right} reports right, {wrong} wrong")
    return int(wrong > 0)


def main():
    if len(sys.argv) == 1:
        return compare((*of_examples(), *of_tests()))
    if sys.argv[1] == "--random":
        return compare(of_random(int(sys.argv[2])))
    print(report(Path(sys.argv[1]).read_text(encoding="utf-8"), Searching), end="")
    return 0


if __name__ == "__main__":
    sys.exit(main())
