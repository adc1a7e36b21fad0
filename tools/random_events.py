"""Random event files, for `trace_lines.py`: mostly sound lines, with comments and blank lines, and now and then a line with a fault. A
seed makes always the same one of a specification."""

import random
import re

# What is made of a sound line: one that breaks a rule, mostly, or is too long.
BREAKS = (
    lambda line: line + b" \xff",
    lambda line: b"x" + line,
    lambda line: re.sub(rb"^[^ \t]+", rb"\g<0>[9]", line),
    lambda line: re.sub(rb"[ \t]+[^ \t]+$", b"", line),
    lambda line: line + b"\t2",
    lambda line: line + b"q",
    lambda line: line + b"0000000000",
    lambda line: line + b" " * 4_097,
)


class Maker:
    def __init__(self, it, seed):
        self.it, self.random = it, random.Random(seed)

    def one(self, items):
        return self.random.choice(items)

    def value(self, field):
        kind = self.it.type_of[field]
        if kind in self.it.names_of:
            return self.one(self.it.names_of[kind])
        low, high = self.it.ends[kind]
        number = self.one([low, high, self.random.randint(low, high), self.random.randint(low, min(low + 50, high))])
        return f"{'-' * (number < 0)}{self.one(['', '', '00'])}{abs(number)}"

    def event(self):
        name, index = self.one(self.it.receives)
        word = f"{name}[{self.one(['', '0'])}{index}]" if index else name
        fields = [f"{field}={self.value(field)}" for field in self.it.fields[name]]
        return self.one(["", "", " "]).encode() + self.one([" ", " ", "\t", "  "]).join([word, *fields]).encode()

    def line(self):
        kind = self.random.random()
        if kind < 0.1:
            return self.one([b"", b" \t", b"# " + self.event(), b"\t#\xff"])
        return self.one(BREAKS)(self.event()) if kind > 0.97 else self.event()


def random_events(it, seed):
    """The bytes of a random event file for a specification with a receive."""
    maker = Maker(it, seed)
    lines = [maker.line() for _ in range(maker.random.randrange(30))]
    end = maker.one([b"\n", b"\n", b"\r\n"])
    return end.join(lines) + maker.one([b"", end, end])
