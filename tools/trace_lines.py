#!/usr/bin/env python3
"""What `simulate` writes, worked out from a specification and an event file by an independent reading.

    tools/trace_lines.py                         compares the traces of tests/simulate
    tools/trace_lines.py SPEC EVENTS             writes what `simulate` writes for these files, and ends with its status
    tools/trace_lines.py --random COUNT PROGRAM  compares COUNT random event files for the specifications of tests/simulate with
                                                 what `PROGRAM simulate SPEC EVENTS` writes

`machine_reading.py`, `text_reading.py`, `step_reading.py` and `report_lines.py` read a specification by the sentences of
docs/language.md and docs/formats.md alone, and share nothing with the crates. Here are the lines of an event file, what they say, and the lines of a
trace. A specification has to keep all rules. One with at most 100,000 worlds is judged by trying them all, and where it is refused its
report is written; a larger one is taken to be certified. Cases of specifications that break a rule are left out. Event
files are made by `random_events.py`. The last line of a comparison is `N traces right, M wrong`. tests/refusals takes from here what is
written where a read is refused."""

import math
import re
import subprocess
import sys
import tempfile
from pathlib import Path

from cases import cases_of, text_of
from random_events import random_events
from report_lines import TESTS, Reading, report
from step_reading import latched, micro_steps, raised_by, sent_number
from text_reading import instance_text, label, number_text

# Case files without random event files: those of specifications that are refused or none, and of examples.
NOT_RANDOM = "refusals", "examples"

MOST_WORLDS = 100_000
LINE_LIMIT, FILE_LIMIT = 4_096, 4_294_967_296


class Fault(Exception):
    """A fault of an event file, with its line of the trace and the status."""


# Event files.


def lines_of(content):
    """Each line with its number and its offset, and the offset after its line feed."""
    start = 0
    lines = content.split(b"\n")
    for number, line in enumerate(lines if lines[-1] else lines[:-1], 1):
        yield number, line, start + len(line) + 1
        start += len(line) + 1


def messages(it, content, read):
    """The receive instance and the numbers of each event line, up to the first fault or the place where a read is refused."""
    for number, line, end in lines_of(content[:read]):
        if len(line) > LINE_LIMIT:
            raise Fault(f"fault line {number} long", 3)
        if read is not None and end > read:
            raise Fault("fault read", 5)
        if len(content) > FILE_LIMIT and end > FILE_LIMIT:
            raise Fault("fault long", 8)
        line = line.removesuffix(b"\r")
        rest = line.lstrip(b" \t")
        if rest and not rest.startswith(b"#"):
            rule, told = read_line(it, line)
            if rule:
                raise Fault(f"fault line {number} {rule}", 3)
            yield told
    if read is not None:
        raise Fault("fault read", 5)


def read_line(it, line):
    """The lowest rule that a line breaks, and the receive instance and the numbers of one that breaks none."""
    try:
        word, *words = re.findall(r"[^ \t]+", line.decode())
    except UnicodeDecodeError:
        return "E1", None
    name, bracket, rest = word.partition("[")
    if it.kinds.get(name) != "receive":
        return "E2", None
    index = index_told(it, name, bracket + rest)
    if index is None:
        return "E3", None
    fields = it.fields[name]
    if len(words) < len(fields) or not all(word.startswith(f"{field}=") for field, word in zip(fields, words)):
        return "E4", None
    if len(words) > len(fields):
        return "E5", None
    told = [number_told(it, field, word.partition("=")[2]) for field, word in zip(fields, words)]
    if None in told:
        return "E6", None
    ends = [it.ends[it.type_of[field]] for field in fields]
    if not all(low <= number <= high for number, (low, high) in zip(told, ends)):
        return "E7", None
    return None, ((name, index), told)


def index_told(it, name, text):
    size = len([instance for instance in it.receives if instance[0] == name])
    if (name, 0) in it.receives:
        return None if text else 0
    found = re.fullmatch(r"\[([0-9]+)\]", text)
    return int(found[1]) if found and 1 <= int(found[1]) <= size else None


def number_told(it, field, value):
    names = it.names_of.get(it.type_of[field])
    if names is not None:
        return names.index(value) if value in names else None
    return int(value) if re.fullmatch("-?[0-9]+", value) else None


# Traces.


def send_line(it, world, case):
    send, _, _, _, values = it.cases[case]
    texts = [number_text(it.names_of_value(value), sent_number(it, world, value, send[1])) for value in values]
    return " ".join(["    send", instance_text(send), *[f"{field}={text}" for field, text in zip(it.fields[send[0]], texts, strict=True)]])


def round_lines(it, number, world, present, taken, sent):
    yield " ".join([f"  round {number}", *map(instance_text, sorted(present, key=it.events.index))])
    yield from (f"    take {label(it.transitions[at])}" for at in taken)
    yield from (send_line(it, world, case) for case in sent if it.cases[case][4] is not None)


def reaction(it, world, present):
    """The lines of the rounds of a step, and the world after it."""
    lines, number = [], 0
    while present:
        number += 1
        taken, sent, (after,), raised = micro_steps(it, world, present)
        lines += round_lines(it, number, world, present, taken, sent)
        world, present = after, raised
    return lines, world


def trace(it, content, read):
    """The lines of a trace, and the status."""
    lines, world, events = [], it.first_world(), 0
    try:
        for receive, numbers in messages(it, content, read):
            events += 1
            rounds, world = reaction(it, latched(it, world, receive, numbers), {raised_by(it, receive)})
            lines += [f"event {events} {instance_text(receive)}", *rounds]
    except Fault as fault:
        line, status = fault.args
        return [*lines, line], status
    return [*lines, f"end {events}"], 0


def worlds(it):
    numbers = [high - low + 1 for low, high in map(it.ends_of, it.cells)]
    return math.prod([*map(len, it.components.values()), *numbers])


def simulation(text, content, read=None, of_events=trace):
    """What `simulate` writes, and its status: where a read is refused, with so many bytes of the event file read before."""
    it = Reading(text)
    if worlds(it) <= MOST_WORLDS and not (refused := report(text)).endswith("certified\n"):
        return refused, 1
    lines, status = of_events(it, content, read)
    return "".join(f"{line}\n" for line in lines), status


def of_files(spec, events, of_events):
    """The same of two files: a read is refused of one that is not there."""
    if not spec.exists():
        return "fault read\n", 5
    text = spec.read_text(encoding="utf-8")
    content, read = (events.read_bytes(), None) if events.exists() else (b"", 0)
    return simulation(text, content, read, of_events)


# Comparisons.


def cases_in(folder):
    """Each case of a specification that keeps the rules: its file, itself, the specification, and the event file or nothing."""
    for file in sorted((TESTS / folder).glob("*.cases")):
        for case in cases_of(str(file))[1]:
            if case.status != 2:
                names = case.words[2:] if case.words[0] == "explain" else case.words[1:]
                texts = [text_of(case.files[it], str(file.parent)) if it in case.files else None for it in names]
                yield file.stem, case, texts[0].decode(), texts[1]


def stored(command, of_events):
    """Each answer of the case files, of `explain` without its comment lines, with its place and what is worked out: reads of an event file
    that is not there are refused."""
    for _, case, text, events in cases_in(command):
        read = 0 if events is None else None
        lines = [line for line in case.answer.decode().splitlines(True) if case.words[0] != "explain" or not line.startswith("# ")]
        yield case.place, ("".join(lines), case.status), simulation(text, events or b"", read, of_events)


def at_random(command, of_events, count, program):
    """What a program writes for random event files, and what is worked out."""
    texts = sorted({(name, text) for name, _, text, _ in cases_in("simulate") if name not in NOT_RANDOM})
    with tempfile.TemporaryDirectory() as folder:
        spec, events = Path(folder) / "spec", Path(folder) / "events"
        for seed in range(count):
            name, text = texts[seed % len(texts)]
            content = random_events(Reading(text), seed)
            spec.write_text(text, encoding="utf-8")
            events.write_bytes(content)
            found = subprocess.run([program, command, str(spec), str(events)], capture_output=True, check=False)
            yield f"{name} {seed}", simulation(text, content, None, of_events), (found.stdout.decode(), found.returncode)


def compare(answers, what):
    right = wrong = 0
    for name, wanted, found in answers:
        right, wrong = right + (found == wanted), wrong + (found != wanted)
        if found != wanted:
            print(name, "WANTED", *wanted, "FOUND", *found, sep="\n")
    print(f"{right} {what} right, {wrong} wrong")
    return int(wrong > 0)


def main(command, of_events, what):
    if len(sys.argv) == 1:
        return compare(stored(command, of_events), what)
    if sys.argv[1] == "--random":
        return compare(at_random(command, of_events, int(sys.argv[2]), sys.argv[3]), what)
    written, status = of_files(*map(Path, sys.argv[1:]), of_events)
    print(written, end="")
    return status


if __name__ == "__main__":
    sys.exit(main("simulate", trace, "traces"))
