"""Random small specifications that keep the rules, for `report_lines.py`: a seed makes always the same one."""

import random

ENUMERATION = "enumeration Color { Red, Green, Blue }"
RELATIONS = ["=", "!=", "<", "<=", ">", ">="]


class Maker:
    def __init__(self, seed):
        self.random = random.Random(seed)
        low = self.random.randint(-2, 1)
        self.low, self.high = low, low + self.random.choice([1, 2, 3])
        self.numbers = ["X", "Y"]
        self.colors = ["C"] if self.chance(0.6) else []
        self.size = 2 if self.chance(0.5) else 0
        self.events = ["Go", "Hop", "Jump"][: self.random.randint(1, 3)]
        self.macros, self.functions = [], []
        self.paths = []

    def chance(self, share):
        return self.random.random() < share

    def one(self, items):
        return self.random.choice(items)

    # Sums, phrases and tables. `index` is what an arrayed input may be indexed by, besides numbers.

    def operand(self, index):
        kind = self.random.random()
        if kind < 0.25:
            return str(self.random.randint(0, 3))
        if kind < 0.4 and self.size:
            return f"Z[{self.one(index + ['1', '2'])}]"
        return ("previous " if kind > 0.85 else "") + self.one(self.numbers)

    def sum(self, index, most=3):
        terms = [self.operand(index) for _ in range(self.random.randint(1, most))]
        text = ("-" if self.chance(0.15) else "") + terms[0]
        return text + "".join(f" {self.one('+-')} {it}" for it in terms[1:])

    def simple(self, index):
        kind = self.random.random()
        if kind < 0.2 and self.paths:
            return "in " + self.one(self.paths)
        if kind < 0.3 and self.macros:
            return "macro " + self.one(self.macros)
        if kind < 0.4 and self.functions:
            return f"function {self.one(self.functions)} {self.one(RELATIONS)} {self.random.randint(-3, 5)}"
        if kind < 0.55 and self.colors:
            return f"C {self.one(['=', '!='])} {self.one(['Red', 'Green', 'Blue'])}"
        return f"{self.sum(index)} {self.one(RELATIONS)} {self.sum(index, 2)}"

    def phrase(self, index):
        if self.size and self.chance(0.2):
            return f"{self.one(['some', 'every'])} k of 2 : {self.simple(['k', *index])}"
        return self.simple(index)

    def table(self, index):
        columns = self.random.randint(1, 3)
        rows = self.random.randint(1, 3)
        return "{ " + " ".join(f"{self.phrase(index)} | {' '.join(self.one('TTF.') for _ in range(columns))};" for _ in range(rows)) + " }"

    def guard(self, index):
        return "always" if self.chance(0.15) else self.table(index)

    # Declarations.

    def declarations(self):
        yield ENUMERATION
        yield f"range N {self.low} .. {self.high};"
        yield from (f"input {name} : N = {self.low};" for name in self.numbers)
        yield from (f"input {name} : Color = Green;" for name in self.colors)
        if self.size:
            yield f"input Z [2] : N = {self.high};"
        yield from (f"event {name};" for name in self.events)
        yield f"receive R ({', '.join([*self.numbers, *self.colors])}) raise Go;"
        if self.size:
            yield f"receive S [2] (Z[this]) raise {self.one(self.events)};"
        for name in ["M", "P"][: self.random.randint(0, 2)]:
            yield f"macro {name} {self.table([])}"
            self.macros.append(name)
        if self.chance(0.4):
            cases = [f"{self.sum([])} when {self.guard([])};" for _ in range(self.random.randint(1, 3))]
            yield f"function V {{ {' '.join(cases)} }}"
            self.functions.append("V")
        if self.chance(0.3):
            cases = [f"on {self.one(self.events)} when {self.guard([])} {self.answer()};" for _ in range(self.random.randint(1, 3))]
            yield f"send D (X) {{ {' '.join(cases)} }}"

    def answer(self):
        return "quiet" if self.chance(0.3) else f"({self.sum([])})"

    # States: a component of basic children, some of which are components or parallel states themselves.

    def names_inside(self, path, depth):
        """The plan of a state: its children with their plans."""
        names = ["A", "B", "D"][: self.random.randint(1, 3)]
        return [(f"{name}{depth}", None if depth > 1 or self.chance(0.65) else self.names_inside(path, depth + 1)) for name in names]

    def collect(self, path, plan):
        for name, inner in plan:
            self.paths.append(f"{path}.{name}")
            if inner:
                self.collect(f"{path}.{name}", inner)

    def component(self, name, plan, head="state"):
        children = " ".join(f"state {child};" if inner is None else self.component(child, inner) for child, inner in plan)
        moves = []
        for child, _ in plan:
            for _ in range(self.random.randint(0, 3)):
                moves.append(self.transition([it for it, _ in plan], child))
        return f"{head} {name} one {{ default {self.one(plan)[0]}; {children} {' '.join(moves)} }}"

    def transition(self, children, child):
        move = f"stay {child}" if self.chance(0.4) else f"move {child} -> {self.one(children)}"
        raised = f" raise {self.one(self.events[1:])}" if len(self.events) > 1 and self.chance(0.25) else ""
        return f"{move} on {self.one(self.events)} when {self.guard([])}{raised};"

    def text(self):
        plans = [(name, self.names_inside(name, 0)) for name in (["One"] if self.chance(0.5) else ["One", "Two"])]
        for name, plan in plans:
            self.collect(f"Top.{name}", plan)
        head = ["specification Random;", *self.declarations()]
        inside = " ".join(self.component(name, plan) for name, plan in plans)
        return "\n".join([*head, f"state Top all {{ {inside} }}", ""])


def random_specification(seed):
    """A specification; it has at most some ten thousand worlds."""
    return Maker(seed).text()
