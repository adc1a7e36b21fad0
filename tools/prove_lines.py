#!/usr/bin/env python3
"""What `prove` writes of a small specification and a text of claims, worked out by trying all worlds and all sets of events.

    tools/prove_lines.py                         compares the answers of tests/prove
    tools/prove_lines.py SPEC CLAIMS             writes what `prove SPEC CLAIMS` writes, and ends with its status
    tools/prove_lines.py --random COUNT PROGRAM  compares COUNT random specifications and claims with what `PROGRAM prove SPEC CLAIMS`
                                                 writes, and asks proved claims in all worlds of random runs

It reads specifications as `report_lines.py` does. Texts that break a rule are left out. The last line of a comparison is `N answers right,
M wrong`."""

import itertools
import random
import re
import subprocess
import sys
import tempfile
from pathlib import Path

from cases import answers_on_texts
from random_certified import random_certified
from random_events import random_events
from report_lines import TESTS, Reading, report, world_lines
from state_reading import TOKEN, path_text
from step_reading import latched, micro_steps, raised_by
from text_reading import instance_text, label
from trace_lines import Fault, compare, messages

def claims_of(it, text):
    """Each claim with its name, read by the names of a specification."""
    it.tokens, it.at, found = [*TOKEN.findall(re.sub(r"#.*", "", text)), ""], 0, []
    while it.tokens[it.at]:
        it.skip("macro")
        found.append((it.take(), it.table()))
    return found


def first_false(it, claims, world):
    return next((name for name, table in claims if not it.holds(world, table, 0)), None)


def sets_of(events):
    """All sets of these events: of two the first is the one without the first event in which they differ."""
    for presence in itertools.product((False, True), repeat=len(events)):
        yield [event for event, present in zip(events, presence) if present]


def moments(it):
    """Each external event with a round, and the events that may be present in it."""
    for start in it.starts():
        for number, ends in enumerate(it.rounds(start), 1):
            yield start, number, [event for event in it.events if event in ends]


def least_break(it, claims):
    """The external event, the round, the present events, the world, what is taken, and the first claim that is false afterwards."""
    before = [world for world in it.all_worlds() if first_false(it, claims, world) is None]
    known = []
    for start, number, events in moments(it):
        for present in sets_of(events):
            if present in known:
                continue
            known.append(present)
            for world in before:
                taken, _, (after,), _ = micro_steps(it, world, present)
                if name := first_false(it, claims, after):
                    return start, number, present, world, taken, name
    return None


def break_lines(it, found):
    start, number, present, world, taken, name = found
    yield f"breaks {name}"
    yield f"  round {number} of {instance_text(start)}"
    yield " ".join(["  events", *map(instance_text, present)])
    yield from world_lines(it, world)
    yield from (f"  take {label(it.transitions[at])}" for at in taken)


def prove(text, claims_text):
    """What `prove` writes, and its status."""
    refused = report(text)
    if not refused.endswith("certified\n"):
        return f"file 1\n{refused}", 1
    it = Reading(text)
    name = it.tokens[1]
    claims = claims_of(it, claims_text)
    lines = [f"prove {name}", *(f"claim {claim}" for claim, _ in claims)]
    if false := first_false(it, claims, it.first_world()):
        lines += [f"initial {false}", "refused 1"]
    elif found := least_break(it, claims):
        lines += [*break_lines(it, found), "refused 1"]
    else:
        lines += ["proved"]
    return "".join(f"{line}\n" for line in lines), int(lines[-1] != "proved")


def stored():
    """Each answer of the case files with its place and what is worked out."""
    for place, texts, told in answers_on_texts(TESTS / "prove", "prove"):
        yield place, prove(*texts), told


def random_claims(it, maker):
    """A text of claims about states of a specification."""
    states = [path_text(path) for path in it.states if len(path) > 2]
    for number in range(maker.randint(1, 2)):
        columns = maker.randint(1, 2)
        rows = [f"in {maker.choice(states)} | {' '.join(maker.choice('TFF.') for _ in range(columns))};" for _ in range(maker.randint(1, 2))]
        yield f"macro Claim{number} {{ {' '.join(rows)} }}\n"


def broken_in_run(text, claims_text, content):
    """The first claim that is false in some world of the run of an event file, if one is."""
    it = Reading(text)
    claims, world = claims_of(it, claims_text), it.first_world()
    try:
        for receive, numbers in messages(it, content, None):
            world, present = latched(it, world, receive, numbers), {raised_by(it, receive)}
            while present:
                if name := first_false(it, claims, world):
                    return name
                _, _, (world,), present = micro_steps(it, world, present)
            if name := first_false(it, claims, world):
                return name
    except Fault:
        pass
    return None


def at_random(count, program):
    """What a program writes of random specifications and claims, and what is worked out."""
    with tempfile.TemporaryDirectory() as folder:
        spec, claims = Path(folder) / "spec", Path(folder) / "claims"
        for seed in range(count):
            text, maker = random_certified(seed), random.Random(seed)
            claims_text = "".join(random_claims(Reading(text), maker))
            spec.write_text(text, encoding="utf-8")
            claims.write_text(claims_text, encoding="utf-8")
            found = subprocess.run([program, "prove", str(spec), str(claims)], capture_output=True, check=False)
            told = f"seed {seed}\n{text}{claims_text}"
            yield told, prove(text, claims_text), (found.stdout.decode(), found.returncode)
            if found.returncode == 0:
                yield f"run of {told}", (None,), (broken_in_run(text, claims_text, random_events(Reading(text), seed)),)


def main():
    if len(sys.argv) == 1:
        return compare(stored(), "answers")
    if sys.argv[1] == "--random":
        return compare(at_random(int(sys.argv[2]), sys.argv[3]), "answers")
    written, status = prove(*(Path(it).read_text(encoding="utf-8") for it in sys.argv[1:]))
    print(written, end="")
    return status


if __name__ == "__main__":
    sys.exit(main())
