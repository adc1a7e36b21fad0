"""A specification with its transitions, sends, functions and groups, and what is true in a world.

It is an independent reading of the definitions: states are paths and events are names with indices, the sentences are those of
docs/language.md, and it shares nothing with the crates. The states and worlds are those of `state_reading.py`."""

import operator

from state_reading import Specification, is_prefix

RELATIONS = {"=": operator.eq, "!=": operator.ne, "<": operator.lt, "<=": operator.le, ">": operator.gt, ">=": operator.ge}


class Machine(Specification):
    """A specification with its transitions, sends and functions; an instance is a pair of a name and an index."""

    def __init__(self, text):
        self.declared, self.constants, self.of_input = [], {}, {}
        super().__init__(text)
        for kind, name, size, content in self.declared:
            if kind == "input":
                self.of_input[name] = content
        self.inputs, self.events = self.instances("input"), self.instances("event")
        self.definitions, self.sends = self.instances("macro", "function"), self.instances("send")
        self.content = {name: content for kind, name, _, content in self.declared}
        self.kinds = {name: kind for kind, name, _, _ in self.declared}
        self.cells = [*[(it, False) for it in self.inputs], *[(it, True) for it in self.inputs if it[0] in self.previous]]
        self.transitions = [it for path in self.components for it in self.transitions_of(path)]
        self.cases = [(send, at, *self.case(send, case)) for send in self.sends for at, case in enumerate(self.content[send[0]], 1)]
        self.receives = self.instances("receive")
        self.external = {self.instance(self.content[name][1], index) for name, index in self.receives}

    # What is read.

    def sees(self, token):
        return self.tokens[self.at] == token

    def skip(self, token):
        assert self.take() == token

    def repeated(self, item, between=","):
        items = [item()]
        while self.sees(between):
            self.take()
            items.append(item())
        return items

    def until(self, end, item):
        items = []
        while not self.sees(end):
            items.append(item())
        self.take()
        return items

    def amount(self, token):
        return int(token) if token.isdigit() else self.constants[token]

    def signed(self):
        minus = self.sees("-") and self.take()
        return int(self.take()) * (-1 if minus else 1)

    def reference(self):
        name, index = self.take(), None
        if self.sees("["):
            self.take()
            index = self.take()
            self.skip("]")
        return name, index

    def declaration(self):
        kind, name = self.take(), self.take()
        size = self.reference_size() if self.sees("[") else None
        content = getattr(self, "read_" + kind)(name)
        self.declared.append((kind, name, size, content))

    def reference_size(self):
        self.take()
        size = self.take()
        self.skip("]")
        return size

    def read_specification(self, name):
        self.skip(";")

    def read_enumeration(self, name):
        self.skip("{")
        values = self.repeated(self.take)
        self.skip("}")
        self.constants |= {value: at for at, value in enumerate(values)}

    def read_range(self, name):
        self.signed()
        self.skip("..")
        self.signed()
        self.skip(";")

    def read_constant(self, name):
        self.skip("=")
        self.constants[name] = self.signed()
        self.skip(";")

    def read_input(self, name):
        self.skip(":")
        self.take()
        self.skip("=")
        initial = self.signed() if self.sees("-") or self.tokens[self.at].isdigit() else self.take()
        self.skip(";")
        return initial

    def read_event(self, name):
        self.skip(";")

    def read_macro(self, name):
        return self.table()

    def read_function(self, name):
        self.skip("{")
        return self.until("}", self.function_case)

    def function_case(self):
        value = self.sum()
        self.skip("when")
        guard = self.guard()
        self.skip(";")
        return value, guard

    def read_receive(self, name):
        self.skip("(")
        inputs = [] if self.sees(")") else self.repeated(self.reference)
        self.skip(")")
        self.skip("raise")
        raised = self.reference()
        self.skip(";")
        return inputs, raised

    def read_send(self, name):
        while self.take() != ")":
            pass
        self.skip("{")
        return self.until("}", self.send_case)

    def send_case(self):
        self.skip("on")
        event = self.reference()
        self.skip("when")
        guard, values = self.guard(), None
        if self.take() == "(":
            values = [] if self.sees(")") else self.repeated(self.value)
            self.skip(")")
        self.skip(";")
        return event, guard, values

    def value(self):
        if self.sees("function"):
            self.take()
            return "function", self.reference()
        return "sum", self.sum()

    def sum(self):
        minus = bool(self.sees("-") and self.take())
        terms = [(minus, self.operand())]
        while self.tokens[self.at] in "+-":
            minus = self.take() == "-"
            terms.append((minus, self.operand()))
        return terms

    def operand(self):
        if self.tokens[self.at].isdigit():
            return "number", int(self.take())
        is_previous = self.sees("previous") and self.take()
        return "previous" if is_previous else "named", self.reference()

    def guard(self):
        if self.sees("always"):
            self.take()
            return None
        return self.table()

    def table(self):
        self.skip("{")
        return self.until("}", self.row)

    def row(self):
        phrase = self.phrase()
        self.skip("|")
        return phrase, self.until(";", self.take)

    def phrase(self):
        if not (self.sees("some") or self.sees("every")):
            return self.simple()
        which, variable = self.take(), self.take()
        self.skip("of")
        count = self.amount(self.take())
        self.skip(":")
        return which, variable, count, self.simple()

    def simple(self):
        kind = self.take() if self.tokens[self.at] in ("in", "macro", "function") else "compare"
        if kind == "in":
            return kind, self.repeated(self.reference, ".")
        if kind == "macro":
            return kind, self.reference()
        left = self.reference() if kind == "function" else self.sum()
        return kind, left, self.take(), self.sum()

    def leading(self):
        buses, moves = {}, []
        while not self.sees("}"):
            kind, name = self.take(), self.take()
            if kind == "bus":
                self.skip("{")
                buses[name] = self.repeated(self.take)
                self.skip("}")
            else:
                moves.append((name, *self.move(kind)))
        self.take()
        return [(buses.get(name, [name]), *others) for name, *others in moves]

    def move(self, kind):
        target = None
        if kind == "move":
            self.skip("->")
            target = self.repeated(self.take, ".")
        self.skip("on")
        event = self.reference()
        self.skip("when")
        guard, raised = self.guard(), []
        if self.sees("raise"):
            self.take()
            raised = self.repeated(self.reference)
        self.skip(";")
        return target, event, guard, raised

    # What is made of it.

    def instances(self, *kinds):
        found = []
        for kind, name, size, _ in self.declared:
            if kind in kinds:
                found += [(name, at) for at in range(1, self.amount(size) + 1)] if size else [(name, 0)]
        return found

    def index(self, index, this, bound=()):
        """The number of a written index, where `this` is the index at hand, and bound a variable with its number."""
        if index is None:
            return 0
        if index == "this":
            return this
        return bound[1] if bound and index == bound[0] else self.amount(index)

    def instance(self, reference, this, bound=()):
        return reference[0], self.index(reference[1], this, bound)

    def transitions_of(self, path):
        """The transitions of a component, each as its component, place, source, target, event, guard, raised events and `this`."""
        this = next((index for _, index in reversed(path) if index), 0)
        for ordinal, (sources, target, event, guard, raised) in enumerate(self.moves[path], 1):
            for source in sources:
                to = target and (*path, *[(name, 0) for name in target])
                events = [self.instance(it, this) for it in raised]
                yield path, ordinal, (*path, (source, 0)), to, self.instance(event, this), guard, events, this

    def case(self, send, case):
        event, guard, values = case
        return self.instance(event, send[1]), guard, values

    def groups(self):
        """Each as its kind, of what it is, its event if it has one, the states below that react, and its members."""
        found = []
        for path in self.states:
            for event in self.events:
                on = [(at, it[2]) for at, it in enumerate(self.transitions) if it[4] == event]
                if any(source == path for _, source in on):
                    below = {source for _, source in on if is_prefix(path, source) and source != path}
                    found.append(("state", path, event, below, [("t", at) for at, source in on if is_prefix(source, path)]))
        for send in self.sends:
            for event in self.events:
                members = [("c", at) for at, it in enumerate(self.cases) if it[0] == send and it[2] == event]
                if members:
                    found.append(("send", send, event, set(), members))
        for at, it in enumerate(self.definitions):
            if self.kinds[it[0]] == "function":
                found.append(("function", it, None, set(), [("f", (at, case)) for case in range(len(self.content[it[0]]))]))
        return found

    # What is true in a world: a pair of choices and of numbers of cells.

    def first_world(self):
        choices = [children.index(self.default[path]) for path, children in self.components.items()]
        initial = [self.of_input[name] for (name, _), _ in self.cells]
        return choices, [self.constants.get(it, it) for it in initial]

    def number(self, world, terms, this, bound=()):
        return sum(-self.term(world, it, this, bound) if minus else self.term(world, it, this, bound) for minus, it in terms)

    def term(self, world, operand, this, bound):
        kind, what = operand
        if kind == "number":
            return what
        if kind == "named" and what[0] in self.constants:
            return self.constants[what[0]]
        return world[1][self.cells.index((self.instance(what, this, bound), kind == "previous"))]

    def holds(self, world, guard, this):
        if guard is None:
            return True
        truths = [self.is_true(world, phrase, this, ()) for phrase, _ in guard]
        columns = zip(*[cells for _, cells in guard])
        return any(all(cell == "." or (cell == "T") == truth for cell, truth in zip(column, truths)) for column in columns)

    def is_true(self, world, phrase, this, bound):
        match phrase:
            case "some", variable, count, inner:
                return any(self.is_true(world, inner, this, (variable, at)) for at in range(1, count + 1))
            case "every", variable, count, inner:
                return all(self.is_true(world, inner, this, (variable, at)) for at in range(1, count + 1))
            case "in", steps:
                return self.is_active(world[0], tuple(self.instance(it, this, bound) for it in steps))
            case "macro", reference:
                name, index = self.instance(reference, this, bound)
                return self.holds(world, self.content[name], index)
            case "function", reference, relation, constant:
                name, index = self.instance(reference, this, bound)
                right = self.number(world, constant, this, bound)
                values = [self.number(world, it, index) for it, guard in self.content[name] if self.holds(world, guard, index)]
                return any(RELATIONS[relation](value, right) for value in values)
            case "compare", left, relation, right:
                return RELATIONS[relation](self.number(world, left, this, bound), self.number(world, right, this, bound))

    def is_taken(self, world, number):
        _, _, source, _, _, guard, _, this = self.transitions[number]
        return self.is_active(world[0], source) and self.holds(world, guard, this)

    def is_enabled(self, world, member):
        kind, number = member
        if kind == "t":
            return self.is_taken(world, number)
        if kind == "c":
            (_, index), _, _, guard, _ = self.cases[number]
            return self.holds(world, guard, index)
        name, index = self.definitions[number[0]]
        return self.holds(world, self.content[name][number[1]][1], index)

    def is_met(self, world, group):
        kind, path, _, below, _ = group
        return kind != "state" or (self.is_active(world[0], path) and not any(self.is_active(world[0], it) for it in below))
