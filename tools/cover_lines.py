#!/usr/bin/env python3
"""What `cover` writes, worked out from a specification and an event file by an independent reading.

    tools/cover_lines.py                         compares the counts of tests/cover
    tools/cover_lines.py SPEC EVENTS             writes what `cover` writes for these files, and ends with its status
    tools/cover_lines.py --random COUNT PROGRAM  compares COUNT random event files for the specifications of tests/simulate with
                                                 what `PROGRAM cover SPEC EVENTS` writes

It reads event files and does micro-steps as `trace_lines.py` does, by the sentences of docs/language.md and docs/formats.md alone, and
judges small specifications as that does. The last line of a comparison is `N counts right, M wrong`."""

import sys

from step_reading import latched, micro_steps, raised_by
from text_reading import instance_text, label
from trace_lines import Fault, main, messages


def rounds_of(it, world, present):
    """Each round of a step: the world before it, and the numbers of what is taken and of what is sent."""
    while present:
        taken, sent, (after,), raised = micro_steps(it, world, present)
        yield world, after, taken, sent
        world, present = after, raised


def columns_of(it, world, guard, this):
    """Whether each column of a table is true."""
    truths = [it.is_true(world, phrase, this, ()) for phrase, _ in guard]
    return [all(cell in (".", "FT"[truth]) for cell, truth in zip(column, truths)) for column in zip(*[cells for _, cells in guard])]


class Counts:
    """What is counted of one transition or case: its line, and its guard with the index that `this` stands for."""

    def __init__(self, words, guard, this):
        self.words, self.guard, self.this, self.count = words, guard, this, 0
        self.columns = [0] * (len(guard[0][1]) if guard else 0)

    def add(self, it, world):
        self.count += 1
        if self.guard:
            found = columns_of(it, world, self.guard, self.this)
            self.columns = [count + truth for count, truth in zip(self.columns, found, strict=True)]

    def lines(self):
        yield self.words.replace("N", str(self.count), 1)
        yield from (f"  column {at} {count}" for at, count in enumerate(self.columns, 1))


def coverage(it, content, read):
    """The lines that `cover` writes of an event file, and the status."""
    takes = [Counts(f"taken N {label(found)}", found[5], found[7]) for found in it.transitions]
    sends = [Counts(f"chosen N send {instance_text(send)} case {at}", guard, send[1]) for send, at, _, guard, _ in it.cases]
    world, events = it.first_world(), 0
    try:
        for receive, numbers in messages(it, content, read):
            events += 1
            world = latched(it, world, receive, numbers)
            for before, after, taken, sent in rounds_of(it, world, {raised_by(it, receive)}):
                for counts in [*[takes[at] for at in taken], *[sends[at] for at in sent]]:
                    counts.add(it, before)
                world = after
    except Fault as fault:
        line, status = fault.args
        return [line], status
    every = [count for counts in [*takes, *sends] for count in (counts.count, *counts.columns)]
    lines = [line for counts in [*takes, *sends] for line in counts.lines()]
    return [f"cover {it.tokens[1]}", *lines, f"events {events}", f"uncovered {every.count(0)}"], 0


if __name__ == "__main__":
    sys.exit(main("cover", coverage, "counts"))
