"""The instances of a specification: its states, components, inputs and events, and the worlds that they have.

It is an independent reading of the definitions: it works on paths alone, by the sentences of docs/language.md, and shares nothing
with the crates. The programs `report_lines.py`, `search_lines.py` and `trace_lines.py` rest on it."""

import itertools
import re

TOKEN = re.compile(r"\w+|\.\.|->|!=|<=|>=|\S")


class Specification:
    """The instances of a specification, each as a path: a tuple of names with indices, 0 for a plain one."""

    def __init__(self, text):
        self.tokens, self.at = TOKEN.findall(re.sub(r"#.*", "", text)), 0
        self.states, self.components, self.default = [], {}, {}
        self.inputs, self.events, self.previous, self.moves = [], [], set(), {}
        for place, token in enumerate(self.tokens):
            if token == "previous":
                self.previous.add(self.tokens[place + 1])
        while self.tokens[self.at] != "state":
            self.declaration()
        self.at += 1
        name = self.take()
        self.body(self.plan(), ((name, 0),))

    def take(self):
        self.at += 1
        return self.tokens[self.at - 1]

    def declaration(self):
        kind, name = self.take(), self.take()
        size = int(self.tokens[self.at + 1]) if self.tokens[self.at] == "[" else 0
        into = {"input": self.inputs, "event": self.events}.get(kind)
        if into is not None:
            into += [(name, it) for it in range(1, size + 1)] or [(name, 0)]
        # Only macros, functions and sends have braces; all else ends at its semicolon.
        depth, first = 0, True
        while first or depth:
            token = self.take()
            depth += (token == "{") - (token == "}")
            first = not (token in ";}" and depth == 0)

    def plan(self):
        """What stands after a state's name: its kind, its default, its children, each with a size and a plan of its own, and
        what leads between them."""
        kind = self.take()
        if kind == ";":
            return kind, None, [], None
        self.take()
        default, children = None, []
        if kind == "one":
            self.take()
            default = self.take()
            self.take()
        while self.tokens[self.at] in ("state", "array"):
            is_array, name, size = self.take() == "array", self.take(), 0
            if is_array:
                self.take()
                size = self.amount(self.take())
                self.take()
            children.append((name, size, self.plan()))
        return kind, default, children, self.leading()

    def amount(self, token):
        return int(token)

    def leading(self):
        """The buses and transitions of a state, up to its end: here they are left out."""
        depth = 1
        while depth:
            token = self.take()
            depth += (token == "{") - (token == "}")

    def body(self, plan, path):
        kind, default, children, moves = plan
        self.states.append(path)
        if kind == "one":
            self.components[path] = [(name, 0) for name, _, _ in children]
            self.default[path] = (default, 0)
            self.moves[path] = moves
        for name, size, inner in children:
            for index in range(1, size + 1) if size else [0]:
                self.body(inner, (*path, (name, index)))

    def worlds(self):
        """All choices of children, those of the first component changing fastest."""
        counts = [range(len(it)) for it in self.components.values()]
        return [it[::-1] for it in itertools.product(*reversed(counts))]

    def is_active(self, choices, path):
        """Each component that is a proper prefix of the path has the path's next step as its child."""
        for chosen, (component, children) in zip(choices, self.components.items()):
            if is_prefix(component, path) and component != path and path[len(component)] != children[chosen]:
                return False
        return True

    def entered(self, choices, moving, target):
        """The moving component and those below it get the next step of the target, else their defaults."""
        after = []
        for chosen, (component, children) in zip(choices, self.components.items()):
            if is_prefix(moving, component):
                is_on_way = is_prefix(component, target) and component != target
                child = target[len(component)] if is_on_way else self.default[component]
                chosen = children.index(child)
            after.append(chosen)
        return after


def is_prefix(one, other):
    return other[: len(one)] == one


def path_text(path):
    return ".".join(name + (f"[{index}]" if index else "") for name, index in path)
