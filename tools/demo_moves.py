#!/usr/bin/env python3
"""The summary of `demo N` for each N from 1 to 64, by an independent simulation: compares those that tests/demo.cases has.

A plant has N units, each off at first and with the depth 0. The event at a place from 1 to 1,000 gives one unit a depth. Then each
unit that is off goes on where its depth is 500 or more, and each that is on goes off where all are on, or where no depth is 500 or
more. All read what was before; each other unit stays. The last line is `N summaries, M wrong`."""

import sys
from pathlib import Path

from cases import cases_of

CASES = Path(__file__).resolve().parent.parent / "tests/demo.cases"


def moves(units):
    on = [False] * units
    depth = [0] * units
    count = 0
    for place in range(1, 1001):
        depth[7 * place % units] = 37 * place % 1000
        full = all(on)
        high = any(d >= 500 for d in depth)
        after = [high and not full if was_on else d >= 500 for was_on, d in zip(on, depth)]
        count += sum(a != b for a, b in zip(on, after))
        on = after
    return count


def summary(units):
    lines = [f"demo {units}", f"groups {2 * units}", "chain Go 1", "certified", "events 1000", "rounds 1000"]
    return "\n".join([*lines, f"takes {1000 * units}", f"moves {moves(units)}", ""])


def main():
    stored = [(int(case.words[1]), case.answer.decode()) for case in cases_of(str(CASES))[1] if case.status == 0]
    wrong = [units for units, answer in stored if answer != summary(units)]
    wrong += sorted(set(range(1, 65)) - {units for units, _ in stored})
    for units in wrong:
        print(f"demo {units}", summary(units), sep="\n")
    print(f"{len(stored)} summaries, {len(wrong)} wrong")
    return int(bool(wrong))


if __name__ == "__main__":
    sys.exit(main())
