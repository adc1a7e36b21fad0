#!/usr/bin/env python3
"""Writes specifications as antt values, for the worked examples of the definitions.

    tools/syntax_values.py FOLDER

reads each FOLDER/examples/NAME.rsml and writes FOLDER/proofs/values/NAME.antt, with `proofs/values.antt` that lists them.
It trusts that the texts are well-formed, and checks no rule."""

import re
import sys
from pathlib import Path

TOKEN = re.compile(r"[ \t\r\n]*(?:#[^\n]*\n[ \t\r\n]*)*(\w+|\.\.|!=|<=|>=|->|\S)")
RELATIONS = {"=": "Equal", "!=": "NotEqual", "<": "Less", "<=": "LessEqual", ">": "Greater", ">=": "GreaterEqual"}
CELLS = {"T": "T", "F": "F", ".": "Dot"}

SYNTAX = "Rattle.rsml_syntax.specs.declared.syntax"
IMPORTS = [
    ("Rattle.std.specs.Prelude", ["[]", "◌∷◌", "Some", "None"]),
    (f"{SYNTAX}.Spec", ["Spec"]),
    (f"{SYNTAX}.Body", ["Body", "Basic", "One'", "All'", "end_of-StateDecl", "more_of-StateDecl"]),
]


class Text:
    """The tokens of a text, read from the front, and what was made of them so far."""

    def __init__(self, text):
        self.tokens = TOKEN.findall(text)
        self.at = 0
        self.used = set()
        self.definitions = []

    def peek(self):
        return self.tokens[self.at] if self.at < len(self.tokens) else None

    def next(self):
        self.at += 1
        return self.tokens[self.at - 1]

    def take(self, token):
        """Whether this token stands next, which is then read."""
        if self.peek() != token:
            return False
        self.at += 1
        return True

    def expect(self, token):
        if not self.take(token):
            sys.exit(f"{token} is wanted before {' '.join(self.tokens[self.at:self.at + 5])}")

    def word(self, name):
        """A word of `proofs/Written.antt`, which the value then imports."""
        self.used.add(name)
        return name

    def define(self, name, kind, written):
        """A definition of its own, by its name."""
        self.definitions.append(f"abbrev pub {name} : {kind}\n{name} = {written}\n")
        return name


def call(*parts):
    return "(" + " ".join(parts) + ")"


def bare(item):
    """A call without its parentheses, as an item of a list."""
    return item[1:-1] if item.startswith("(") else item


def listed(items, between=" ∷ "):
    items = [bare(item) for item in items]
    return "(" + between.join([*items, "[]"]) + ")" if items else "[]"


def stacked(items):
    """A list with one item a line."""
    return listed(items, " ∷\n    ")


def string(text):
    return f'"{text}"'


def separated(text, item, end):
    """Items with commas between them, up to the end mark."""
    items = []
    while not text.take(end):
        if items:
            text.expect(",")
        items.append(item(text))
    return items


def name(text):
    return string(text.next())


def amount(text):
    token = text.next()
    return call(text.word("number"), token) if token.isdigit() else call(text.word("named"), string(token))


def size(text):
    if not text.take("["):
        return "None"
    written = amount(text)
    text.expect("]")
    return call("Some", written)


def signed(text):
    return call(text.word("minus" if text.take("-") else "plus"), text.next())


def mention(text):
    written = name(text)
    if not text.take("["):
        return call(text.word("plain"), written)
    token = text.next()
    text.expect("]")
    if token == "this":
        return call(text.word("at_this"), written)
    if token.isdigit():
        return call(text.word("at_number"), written, token)
    return call(text.word("at_name"), written, string(token))


def operand(text):
    if text.take("previous"):
        return call(text.word("previous"), mention(text))
    if text.peek().isdigit():
        return call(text.word("digits"), text.next())
    return call(text.word("of"), mention(text))


def sum_of(text):
    minus = text.take("-")
    terms = [(minus, operand(text))]
    while text.peek() in ("+", "-"):
        minus = text.next() == "-"
        terms.append((minus, operand(text)))
    if len(terms) == 1 and not terms[0][0]:
        return call(text.word("just"), terms[0][1])
    return call(text.word("total"), listed(call(text.word("less" if minus else "add"), written) for minus, written in terms))


def relation(text):
    return text.word(RELATIONS[text.next()])


def simple(text):
    if text.take("in"):
        path = [mention(text)]
        while text.take("."):
            path.append(mention(text))
        return call(text.word("in_state"), listed(path))
    if text.take("macro"):
        return call(text.word("is_macro"), mention(text))
    if text.take("function"):
        return call(text.word("is_function"), mention(text), relation(text), sum_of(text))
    return call(text.word("compares"), sum_of(text), relation(text), sum_of(text))


def phrase(text):
    if text.peek() not in ("some", "every"):
        return call(text.word("phrase"), simple(text))
    word = text.word("some_of" if text.next() == "some" else "every_of")
    variable = name(text)
    text.expect("of")
    bound = amount(text)
    text.expect(":")
    return call(word, variable, bound, simple(text))


def row(text):
    written = phrase(text)
    text.expect("|")
    cells = []
    while not text.take(";"):
        cells.append(text.word(CELLS[text.next()]))
    return call(text.word("row"), written, listed(cells))


def table(text):
    text.expect("{")
    rows = []
    while not text.take("}"):
        rows.append(row(text))
    return listed(rows)


def guard(text):
    text.expect("when")
    return text.word("always") if text.take("always") else call(text.word("when"), table(text))


def value(text):
    if text.take("function"):
        return call(text.word("value_of"), mention(text))
    return call(text.word("value"), sum_of(text))


def case(text):
    written = call(text.word("case"), sum_of(text), guard(text))
    text.expect(";")
    return written


def send_case(text):
    text.expect("on")
    trigger, condition = mention(text), guard(text)
    if text.take("quiet"):
        answer = text.word("quiet")
    else:
        text.expect("(")
        answer = call(text.word("sends"), listed(separated(text, value, ")")))
    text.expect(";")
    return call(text.word("send_case"), trigger, condition, answer)


def cases(text, item):
    text.expect("{")
    items = []
    while not text.take("}"):
        items.append(item(text))
    return stacked(items)


def decl(text):
    kind, written = text.next(), name(text)
    if kind == "enumeration":
        text.expect("{")
        return [text.word("enumeration"), written, listed(separated(text, name, "}"))]
    if kind == "range":
        low = signed(text)
        text.expect("..")
        parts = [text.word("range"), written, low, signed(text)]
    elif kind == "constant":
        text.expect("=")
        parts = [text.word("constant"), written, signed(text)]
    else:
        return sized(text, kind, written, size(text))
    text.expect(";")
    return parts


def sized(text, kind, written, count):
    """A declaration that may have a size, from what follows that."""
    parts = [text.word(kind), written, count]
    if kind == "macro":
        return parts + [table(text)]
    if kind == "function":
        return parts + [cases(text, case)]
    if kind == "send":
        text.expect("(")
        return parts + [listed(separated(text, name, ")")), cases(text, send_case)]
    if kind == "input":
        text.expect(":")
        parts.append(name(text))
        text.expect("=")
        parts.append(call(text.word("from_number"), signed(text)) if text.peek() == "-" or text.peek().isdigit() else call(text.word("from_name"), name(text)))
    if kind == "receive":
        text.expect("(")
        parts.append(listed(separated(text, mention, ")")))
        text.expect("raise")
        parts.append(mention(text))
    text.expect(";")
    return parts


def body(text, name_of_body):
    """A body; one with children is a definition of its own."""
    if text.take(";"):
        return "Basic"
    kind = text.next()
    text.expect("{")
    if kind == "all":
        written = f"All' {children(text, name_of_body)}"
        text.expect("}")
        return text.define(name_of_body, "Body", written)
    text.expect("default")
    first = call(text.word("name"), name(text))
    text.expect(";")
    row_of_children = children(text, name_of_body)
    buses = []
    while text.take("bus"):
        bus = name(text)
        text.expect("{")
        buses.append(call(text.word("bus"), bus, listed(separated(text, name, "}"))))
    transitions = []
    while not text.take("}"):
        transitions.append(transition(text))
    return text.define(name_of_body, "Body", f"One' {first} {row_of_children} {listed(buses)}\n    {stacked(transitions)}")


def children(text, name_of_parent):
    """The shape of a row of children, and the row."""
    items = []
    while text.peek() in ("state", "array"):
        text.next()
        child = text.peek()
        parts = [call(text.word("name"), name(text)), size(text)]
        items.append(" ".join([*parts, body(text, f"{name_of_parent}_{child.lower()}")]))
    row_of_children = "".join(f"\n    (more_of-StateDecl {item}" for item in items) + " end_of-StateDecl" + ")" * len(items)
    return listed(["tt"] * len(items)) + row_of_children


def transition(text):
    kind, source = text.next(), name(text)
    target = []
    if kind == "move":
        text.expect("->")
        target = [name(text)]
        while text.take("."):
            target.append(name(text))
    text.expect("on")
    trigger, condition = mention(text), guard(text)
    raises = [mention(text)] if text.take("raise") else []
    while text.take(","):
        raises.append(mention(text))
    text.expect(";")
    places = [source, listed(target)] if target else [source]
    return call(text.word(kind), *places, trigger, condition, listed(raises))


def spec(text, value_name):
    text.expect("specification")
    spec_name = name(text)
    text.expect(";")
    decls = []
    while text.peek() != "state":
        decls.append(" ".join(decl(text)))
    text.expect("state")
    top = name(text)
    states = body(text, f"{value_name}_body")
    if text.peek() is not None:
        sys.exit(f"nothing is wanted before {text.peek()}")
    text.define(value_name, "Spec", f"{text.word('specification')} {spec_name}\n    {stacked(decls)}\n    {top} {states}")
    return "\n".join(text.definitions)


def head(written, words):
    """The first lines of a file, which import what the value uses."""
    lines = ["-- A specification of the examples, as a value. tools/syntax_values.py writes this file."]
    for module, names in [*IMPORTS, ("Rattle.rsml_meaning.proofs.Written", sorted(words))]:
        used = [item for item in names if re.search(rf"(?<![\w']){re.escape(item.strip('◌'))}(?![\w'])", written)]
        lines.append(f"use {module}.{{{', '.join(used)}}}")
    return "\n".join(lines) + "\n\n"


def main(folder):
    modules = []
    for path in sorted((folder / "examples").glob("*.rsml")):
        text = Text(path.read_text())
        written = spec(text, path.stem)
        module = path.stem.title().replace("_", "")
        (folder / "proofs" / "values" / f"{module}.antt").write_text(head(written, text.used) + written)
        modules.append(f"pub mod {module}\n")
    (folder / "proofs" / "values.antt").write_text("".join(modules))


main(Path(sys.argv[1]))
