#!/usr/bin/env python3
"""What `same` writes of two small specifications, worked out by trying all of their worlds.

    tools/same_lines.py                         compares the answers of tests/same
    tools/same_lines.py ONE OTHER               writes what `same ONE OTHER` writes, and ends with its status
    tools/same_lines.py --random COUNT PROGRAM  compares COUNT random specifications, each beside itself with other guards, with what
                                                `PROGRAM same ONE OTHER` writes, and where it writes `same` the traces of random events

It reads specifications as `report_lines.py` does, and compares frames as lists of tokens. Texts that break a rule are left out. The last line
of a comparison is `N answers right, M wrong`."""

import random
import re
import subprocess
import sys
import tempfile
from pathlib import Path

from cases import answers_on_texts
from random_certified import random_certified
from random_events import random_events
from report_lines import TESTS, Reading, report, world_lines
from state_reading import TOKEN
from text_reading import instance_text, label
from trace_lines import compare, simulation

def past(tokens, at):
    """The place behind the braces that open at a place."""
    depth = 0
    while True:
        depth += (tokens[at] == "{") - (tokens[at] == "}")
        at += 1
        if depth == 0:
            return at


def frame(text):
    """The tokens without the name and the macros, with `always` for each guard; and the names after `previous`."""
    tokens = TOKEN.findall(re.sub(r"#.*", "", text))
    left, at, names = [], 3, {name for word, name in zip(tokens, tokens[1:]) if word == "previous"}
    while at < len(tokens):
        if tokens[at] == "macro" and tokens[at - 1] in (";", "}"):
            at = past(tokens, tokens.index("{", at))
            continue
        left.append(int(tokens[at]) if tokens[at].isdigit() else tokens[at])
        at += 1
        if left[-1] == "when":
            left.append("always")
            at = past(tokens, at) if tokens[at] == "{" else at + 1
    return left, names


def members(it):
    """Each member with its label, in order: transitions, cases of sends, cases of functions."""
    yield from ((("t", at), label(transition)) for at, transition in enumerate(it.transitions))
    yield from ((("c", at), f"send {instance_text(case[0])} case {case[1]}") for at, case in enumerate(it.cases))
    for at, (name, index) in enumerate(it.definitions):
        if it.kinds[name] == "function":
            yield from ((("f", (at, case)), f"function {instance_text((name, index))} case {case + 1}") for case in range(len(it.content[name])))


def first_difference(one, other):
    """The label of the first member that differs, the least world in which it does, and whether it is enabled there in the first."""
    for (member, name), (its, _) in zip(members(one), members(other), strict=True):
        for world in one.all_worlds():
            enabled = one.is_enabled(world, member)
            if enabled != other.is_enabled(world, its):
                return name, world, enabled
    return None


def same(text, other_text):
    """What `same` writes, and its status."""
    if frame(text) != frame(other_text):
        return "differ frame\n", 1
    refused = report(text)
    if not refused.endswith("certified\n"):
        return f"file 1\n{refused}", 1
    one, other = Reading(text), Reading(other_text)
    found = first_difference(one, other)
    if found is None:
        return "same\n", 0
    name, world, enabled = found
    lines = [f"differ {name}", *world_lines(one, world), f"  enabled {'first' if enabled else 'second'}"]
    return "".join(f"{line}\n" for line in lines), 1


def stored():
    """Each answer of the case files with its place and what is worked out."""
    for place, texts, told in answers_on_texts(TESTS / "same", "same"):
        yield place, same(*texts), told


def cells_turned(text, maker):
    """The text with one cell turned, or one relation."""
    places = [it for it in re.finditer(r"(?<=[|TF.] )[TF](?=[ ;])|(?<= )(?:[<>]=?|!?=)(?= [^;{}|]*\|)", text)]
    if not places:
        return text
    found = maker.choice(places)
    turned = {"T": "F", "F": "T", "<": "<=", "<=": "<", ">": ">=", ">=": ">", "=": "!=", "!=": "="}
    return text[: found.start()] + turned[found[0]] + text[found.end() :]


def columns_turned(text, maker):
    """The text with the columns of each table in the opposite order: it means the same."""
    return re.sub(r"\| ([TF.](?: [TF.])*);", lambda it: f"| {' '.join(it[1].split()[::-1])};", text)


def operands_turned(text, maker):
    """The text with each comparison turned round: it means the same. Sides of one operand alone are turned."""
    turned = {"<": ">", "<=": ">=", ">": "<", ">=": "<=", "=": "=", "!=": "!="}
    return re.sub(r"(?<=[{;:] )(\w+) ([<>]=?|!?=) (\w+) (?=\|)", lambda it: f"{it[3]} {turned[it[2]]} {it[1]} ", text)


def macro_more(text, maker):
    """The text with a macro more and another name: neither is of the frame."""
    return text.replace("specification Random;", "specification Other;").replace("state Top", "macro Never { in Top | F; }\nstate Top", 1)


def at_random(count, program):
    """What a program writes of random specifications, each beside itself with other guards, and what is worked out."""
    with tempfile.TemporaryDirectory() as folder:
        one, other, events = (Path(folder) / name for name in ("one", "other", "events"))
        for seed in range(count):
            text, maker = random_certified(seed), random.Random(seed)
            changed = text
            for change in maker.sample([cells_turned, columns_turned, operands_turned, macro_more], maker.randint(1, 3)):
                changed = change(changed, maker)
            one.write_text(text, encoding="utf-8")
            other.write_text(changed, encoding="utf-8")
            found = subprocess.run([program, "same", str(one), str(other)], capture_output=True, check=False)
            told = f"seed {seed}\n{text}{changed}"
            yield told, same(text, changed), (found.stdout.decode(), found.returncode)
            if found.returncode == 0:
                content = random_events(Reading(text), seed)
                events.write_bytes(content)
                ran = subprocess.run([program, "simulate", str(other), str(events)], capture_output=True, check=False)
                yield f"traces of {told}", simulation(text, content), (ran.stdout.decode(), ran.returncode)


def main():
    if len(sys.argv) == 1:
        return compare(stored(), "answers")
    if sys.argv[1] == "--random":
        return compare(at_random(int(sys.argv[2]), sys.argv[3]), "answers")
    written, status = same(*(Path(it).read_text(encoding="utf-8") for it in sys.argv[1:]))
    print(written, end="")
    return status


if __name__ == "__main__":
    sys.exit(main())
