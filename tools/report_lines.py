#!/usr/bin/env python3
"""The report on a small specification, worked out by trying all of its worlds.

    tools/report_lines.py                         compares the reports that the case files of tests/ have
    tools/report_lines.py FILE                    writes the report on the specification in a file
    tools/report_lines.py --random COUNT PROGRAM  compares COUNT random specifications with what `PROGRAM check FILE` writes

Specifications that have too many worlds are left out. `state_reading.py`, `machine_reading.py`, `text_reading.py` and
`chain_reading.py` read one by the sentences of docs/language.md and docs/formats.md alone, and share nothing with the crates. Random
specifications are made by `random_specifications.py`; where one differs it is printed with both reports. The last line of a comparison is `N reports right, M wrong`."""

import itertools
import subprocess
import sys
import tempfile
from pathlib import Path

from cases import cases_of, text_of
from chain_reading import Chains
from random_specifications import random_specification
from state_reading import path_text
from text_reading import Texts, cell_text, group_text, instance_text, member_text, number_text

TOP = Path(__file__).resolve().parent.parent
TESTS = TOP / "tests"
REPORTS = "check/examples", "check/lamp", "check/language", "random/*", "reports/*"
TOO_MANY_WORLDS = "check/examples: tcas.rsml", "reports/demo: a.rsml", "reports/fixed: a.rsml", "reports/wide: a.rsml"


class Reading(Chains, Texts):
    """A specification with its chains, its texts and its worlds."""

    def ends_of(self, cell):
        (name, _), _ = cell
        return self.ends[self.type_of[name]]

    def all_worlds(self):
        """In their order: first the components, then the cells."""
        choices = [range(len(it)) for it in self.components.values()]
        numbers = [range(low, high + 1) for low, high in map(self.ends_of, self.cells)]
        for chosen in itertools.product(*choices):
            for held in itertools.product(*numbers):
                yield list(chosen), list(held)

    def enabled(self, world, group):
        return [it for it in group[4] if self.is_enabled(world, it)]

    def verdict(self, group):
        """Nothing, or the kind of a finding and its world."""
        double = None
        for world in self.all_worlds():
            if self.is_met(world, group):
                count = len(self.enabled(world, group))
                if count == 0:
                    return "none", world
                if count > 1 and double is None:
                    double = world
        return double and ("two", double)


def world_lines(it, world):
    for chosen, (path, children) in zip(world[0], it.components.items()):
        if chosen:
            yield f"  in {path_text((*path, children[chosen]))} | T"
    for number, cell in zip(world[1], it.cells):
        if number != it.ends_of(cell)[0]:
            names = it.names_of.get(it.type_of[cell[0][0]], [])
            yield f"  {cell_text(cell)} = {number_text(names, number)} | T"


def finding_lines(it, group, kind, world):
    yield f"{kind} {group_text(it, group)}"
    yield from world_lines(it, world)
    if kind == "two":
        yield from (f"  enabled {member_text(it, member)}" for member in it.enabled(world, group))
    yield "  confirmed"


def clash_line(it, start, clash):
    count, one, other = clash
    return f"clash {instance_text(start)} round {count} {instance_text(it.events[one])} {instance_text(it.events[other])}"


def report(text, reading=Reading):
    it = reading(text)
    groups, starts = it.groups(), it.starts()
    lines = [f"specification {it.tokens[1]}", f"groups {len(groups)}"]
    lines += [f"chain {instance_text(event)} {it.length(event) or 'endless'}" for event in starts]
    loops = [f"loop {instance_text(event)}" for event in it.looping()]
    clashes = [clash_line(it, event, clash) for event in starts if (clash := it.first_clash(event))]
    found = [(group, verdict) for group in groups if (verdict := it.verdict(group))]
    lines += [*loops, *clashes]
    for group, (kind, world) in found:
        lines += finding_lines(it, group, kind, world)
    refusals = len(loops) + len(clashes) + len(found)
    return "\n".join([*lines, f"refused {refusals}" if refusals else "certified", ""])


def stored_reports(*patterns):
    """The reports in case files: the name of each, its specification, and itself."""
    for file in sorted(it for pattern in patterns for it in TESTS.glob(f"{pattern}.cases")):
        for case in cases_of(str(file))[1]:
            told = f"{file.relative_to(TESTS).with_suffix('')}: {case.words[1]}"
            if case.words[0] == "check" and case.status < 2 and told not in TOO_MANY_WORLDS:
                yield case.place, text_of(case.files[case.words[1]], str(file.parent)).decode(), case.answer.decode()


def compare_tests():
    right = wrong = 0
    for place, text, wanted in stored_reports(*REPORTS):
        found = report(text)
        right, wrong = right + (found == wanted), wrong + (found != wanted)
        if found != wanted:
            print(place, found, sep="\n")
    print(f"{right} reports right, {wrong} wrong")
    return int(wrong > 0)


def compare(count, program):
    right = wrong = 0
    with tempfile.TemporaryDirectory() as folder:
        file = Path(folder) / "spec"
        for seed in range(count):
            text = random_specification(seed)
            file.write_text(text, encoding="utf-8")
            found = subprocess.run([program, "check", str(file)], capture_output=True, check=False).stdout.decode()
            wanted = report(text)
            right, wrong = right + (found == wanted), wrong + (found != wanted)
            if found != wanted:
                print(f"seed {seed}", text, "WANTED", wanted, "FOUND", found, sep="\n")
    print(f"{right} reports right, {wrong} wrong")
    return int(wrong > 0)


def main():
    if len(sys.argv) == 1:
        return compare_tests()
    if sys.argv[1] == "--random":
        return compare(int(sys.argv[2]), sys.argv[3])
    print(report(Path(sys.argv[1]).read_text(encoding="utf-8")), end="")
    return 0


if __name__ == "__main__":
    sys.exit(main())
