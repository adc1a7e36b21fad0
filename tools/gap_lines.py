#!/usr/bin/env python3
"""What `gaps` writes of a small specification, worked out by trying all of its worlds.

    tools/gap_lines.py                         compares the answers of tests/gaps
    tools/gap_lines.py FILE N                  writes what `gaps FILE N` writes, and ends with its status
    tools/gap_lines.py --random COUNT PROGRAM  compares COUNT random specifications with what `PROGRAM gaps FILE N` writes

It reads specifications as `report_lines.py` does, and makes columns by the sentences of docs/formats.md alone: the least world, widened
part by part as far as all worlds of the column are in the set. Specifications that break a rule, and those that have too many worlds,
are left out. The last line of a comparison is `N answers right, M wrong`."""

import itertools
import subprocess
import sys
import tempfile
from pathlib import Path

from cases import cases_of, text_of
from random_specifications import random_specification
from report_lines import TESTS, Reading
from state_reading import path_text
from text_reading import cell_text, group_text, number_text
from trace_lines import compare

TOO_MANY_WORLDS = ("gaps/wide",)


def lies_in(parts, world):
    return all(number in part for part, number in zip(parts, world, strict=True))


def is_within(failing, parts):
    """Whether all worlds of a column are in a set."""
    return all(world in failing for world in itertools.product(*parts))


def widened(it, failing, parts, at, world):
    """A part of the column that begins as a world alone: what it may be while the later parts are the world's alone."""

    def holds(numbers):
        return is_within(failing, [*parts[:at], numbers, *parts[at + 1 :]])

    own, place = world[at], at - len(it.components)
    if place < 0:
        every = range(len(list(it.components.values())[at]))
        return every if holds(every) else range(own, own + 1)
    low, high = it.ends_of(it.cells[place])
    if it.type_of[it.cells[place][0][0]] in it.names_of:
        every = range(low, high + 1)
        return every if holds(every) else range(own, own + 1)
    above = itertools.takewhile(lambda number: holds((number,)), range(own + 1, high + 1))
    below = itertools.takewhile(lambda number: holds((number,)), range(own - 1, low - 1, -1))
    return range(min([own, *below]), max([own, *above]) + 1)


def column(it, failing):
    """The column of a set of worlds that is not empty: for each part the numbers that it may be."""
    world = min(failing)
    parts = [range(number, number + 1) for number in world]
    for at in range(len(world)):
        parts[at] = widened(it, failing, parts, at, world)
    return parts


def row_lines(it, parts):
    numbers = len(it.components)
    for part, (path, children) in zip(parts[:numbers], it.components.items()):
        if len(part) == 1 < len(children):
            yield f"    in {path_text((*path, children[part[0]]))} | T"
    for part, cell in zip(parts[numbers:], it.cells, strict=True):
        (low, high), names = it.ends_of(cell), it.names_of.get(it.type_of[cell[0][0]], [])
        if len(part) == high - low + 1:
            continue
        if len(part) == 1:
            yield f"    {cell_text(cell)} = {number_text(names, part[0])} | T"
            continue
        if part[0] > low:
            yield f"    {cell_text(cell)} >= {part[0]} | T"
        if part[-1] < high:
            yield f"    {cell_text(cell)} <= {part[-1]} | T"


def column_lines(it, failing, most):
    for number in range(1, most + 1):
        if not failing:
            return
        parts = column(it, failing)
        failing = {world for world in failing if not lies_in(parts, world)}
        yield f"  column {number}"
        yield from row_lines(it, parts)
    if failing:
        yield "  more"


def failing_worlds(it, group):
    """How a group fails, and in which worlds; nothing where it is sound."""
    counts = {(*world[0], *world[1]): len(it.enabled(world, group)) for world in it.all_worlds() if it.is_met(world, group)}
    for kind, failing in ("none", {it for it, count in counts.items() if count == 0}), ("two", {it for it, count in counts.items() if count > 1}):
        if failing:
            return kind, failing
    return None


def gaps(text, most):
    """What `gaps` writes, and its status."""
    it = Reading(text)
    lines, count = [f"specification {it.tokens[1]}"], 0
    for group in it.groups():
        if found := failing_worlds(it, group):
            count += 1
            lines += [f"{found[0]} {group_text(it, group)}", *column_lines(it, found[1], most)]
    return "".join(f"{line}\n" for line in [*lines, f"gaps {count}"]), int(count > 0)


def stored():
    """Each answer of the case files, without comment lines, with its place and what is worked out."""
    for file in sorted((TESTS / "gaps").glob("*.cases")):
        if f"gaps/{file.stem}" in TOO_MANY_WORLDS:
            continue
        for case in cases_of(str(file))[1]:
            words = case.words[1:] if case.words[0] == "explain" else case.words
            if words[0] == "gaps" and len(words) == 3 and case.status < 2:
                text = text_of(case.files[words[1]], str(file.parent)).decode()
                told = "".join(line for line in case.answer.decode().splitlines(True) if not line.startswith("# "))
                yield case.place, gaps(text, int(words[2])), (told, case.status)


def at_random(count, program):
    """What a program writes of random specifications, and what is worked out."""
    with tempfile.TemporaryDirectory() as folder:
        file = Path(folder) / "spec"
        for seed in range(count):
            text, most = random_specification(seed), seed % 6 + 1
            file.write_text(text, encoding="utf-8")
            found = subprocess.run([program, "gaps", str(file), str(most)], capture_output=True, check=False)
            yield f"seed {seed}, {most} columns\n{text}", gaps(text, most), (found.stdout.decode(), found.returncode)


def main():
    if len(sys.argv) == 1:
        return compare(stored(), "answers")
    if sys.argv[1] == "--random":
        return compare(at_random(int(sys.argv[2]), sys.argv[3]), "answers")
    written, status = gaps(Path(sys.argv[1]).read_text(encoding="utf-8"), int(sys.argv[2]))
    print(written, end="")
    return status


if __name__ == "__main__":
    sys.exit(main())
