#!/usr/bin/env python3
"""What `same` writes of two specifications, found by a solver.

    bench/same.py ONE OTHER OUTPUT [SOLVER..]    compares it with what `same ONE OTHER` has written to OUTPUT, and writes the milliseconds

The two have one frame, and the first is certified. The solver (`z3 -in`) is asked of each member in order whether it is enabled in one of
the two alone, up to the first that is. Both are written as one script by `smt.py`, with the same parts of worlds; what the second defines
has names of its own. The time is that of the solver's answers, without the reading of the specifications. Of a difference its member is
compared, and not its world. The status is 1 where the answers differ."""

import re
import sys
import time
from pathlib import Path

import smt
from gaps import Solver
from same_lines import members

OWN = re.compile(r"\|(macro|function|guard|transition|send case) ")


def prelude(script):
    return script.lines[: script.lines.index("(check-sat)")]


def as_second(line):
    """A line of a script with other names for what is not of the frame."""
    return OWN.sub(lambda it: f"|second {it[1]} ", line)


def difference(one, other, solver):
    """The label of the first member that differs."""
    for (member, label), (its, _) in zip(members(one), members(other), strict=True):
        if solver.is_sat(f"(xor {one.member(*member)} {as_second(other.member(*its))})"):
            return label
    return None


def main():
    *files, output, solver = [*sys.argv[1:4], sys.argv[4:] or ["z3", "-in"]]
    one, other = (smt.Script(Path(it).read_text(encoding="utf-8")) for it in files)
    start = time.monotonic()
    solver = Solver(solver)
    solver.tell(*prelude(one), *[as_second(line) for line in prelude(other) if OWN.search(line.split(" ", 1)[1][:16])])
    found = difference(one, other, solver)
    print(f"{1000 * (time.monotonic() - start):.1f}")
    told = Path(output).read_text(encoding="utf-8").split("\n")[0]
    return int(told != (f"differ {found}" if found else "same"))


if __name__ == "__main__":
    sys.exit(main())
