"""The texts of labels, instances and values of a specification, by the sentences of docs/formats.md alone."""

from machine_reading import Machine
from state_reading import path_text


class Texts(Machine):
    """A specification with the types of its inputs, and the fields of its receives and sends."""

    def __init__(self, text):
        self.names_of, self.ends, self.type_of, self.fields = {}, {}, {}, {}
        super().__init__(text)

    def read_enumeration(self, name):
        before = self.at
        super().read_enumeration(name)
        self.names_of[name] = [it for it in self.tokens[before : self.at] if it not in "{,}"]
        self.ends[name] = 0, len(self.names_of[name]) - 1

    def read_range(self, name):
        low = self.signed()
        self.skip("..")
        self.ends[name] = low, self.signed()
        self.skip(";")

    def read_input(self, name):
        self.type_of[name] = self.tokens[self.at + 1]
        return super().read_input(name)

    def in_brackets(self):
        """The names between the round brackets that follow, without indices."""
        rest = self.tokens[self.at + 1 :]
        listed = " ".join(rest[: rest.index(")")]).split(" , ")
        return [it.split()[0] for it in listed if it]

    def read_receive(self, name):
        self.fields[name] = self.in_brackets()
        return super().read_receive(name)

    def read_send(self, name):
        self.fields[name] = self.in_brackets()
        return super().read_send(name)

    # The names of the values that a number stands for: none where it is a number.

    def names_of_operand(self, operand):
        kind, what = operand
        if kind == "number":
            return []
        if what[0] in self.type_of:
            return self.names_of.get(self.type_of[what[0]], [])
        return next((names for names in self.names_of.values() if what[0] in names), [])

    def names_of_sum(self, terms):
        minus, operand = terms[0]
        return self.names_of_operand(operand) if len(terms) == 1 and not minus else []

    def names_of_value(self, value):
        kind, what = value
        return self.names_of_sum(what if kind == "sum" else self.content[what[0]][0][0])


def instance_text(instance):
    return path_text([instance])


def cell_text(cell):
    instance, is_previous = cell
    return ("previous " if is_previous else "") + instance_text(instance)


def number_text(names, number):
    """A value of an enumeration by its name: none where there is no such value."""
    return str(number) if not names else names[number] if number < len(names) else ""


def label(transition):
    path, ordinal, source, target, *_ = transition
    child = path_text(source[-1:])
    action = f"move {child} -> {path_text(target[len(path):])}" if target else f"stay {child}"
    return f"{path_text(path)} {ordinal} {action}"


def group_text(it, group):
    kind, owner, event, _, _ = group
    name = path_text(owner) if kind == "state" else f"{kind} {instance_text(owner)}"
    return f"{name} on {instance_text(event)}" if event else name


def member_text(it, member):
    kind, number = member
    if kind == "t":
        return label(it.transitions[number])
    return f"case {it.cases[number][1] if kind == 'c' else number[1] + 1}"
