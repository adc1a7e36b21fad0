#!/usr/bin/env python3
"""Prints what of a crate its check spent most time on.

    tools/module_times.py NAME [COUNT]    the COUNT (20) dearest modules of crates/NAME

`rt check --jobs 1` keeps each module of the logic in crates/NAME/out/incremental as it ends with it, so the time between two files is
that of the later one. Remove that folder before the check for the times from nothing. The module `F.Lts` is the code of the function
F, as the prover writes it out: its size, in the last column, tells dear functions without any check, and grows faster than the code
with the values that are alive at each `?` and each call. The seconds are those of the clock: leave the machine alone meanwhile."""

import sys
from pathlib import Path

TOP = Path(__file__).resolve().parent.parent


def modules(folder):
    """The files that a check has kept, in the order in which it wrote them: the time of each, its name and its size."""
    files = [it for it in folder.rglob("*.oantt") if it.is_file()]
    return sorted((it.stat().st_mtime, it.stem.partition("-proofs.")[2] or it.stem, it.stat().st_size) for it in files)


def main(words):
    if len(words) not in (1, 2):
        sys.exit(__doc__)
    kept = modules(TOP / "crates" / words[0] / "out/incremental")
    if len(kept) < 2:
        sys.exit(f"{words[0]}: no check has kept anything; run `rt check --jobs 1` in its folder")
    rows = [(later[0] - earlier[0], *later[1:]) for earlier, later in zip(kept, kept[1:])]
    for seconds, name, size in sorted(rows, reverse=True)[: int((words[1:] or ["20"])[0])]:
        print(f"{seconds:8.1f} s  {name:70}  {size / 1e6:6.1f} MB")
    print(f"{kept[-1][0] - kept[0][0]:8.1f} s  {len(kept)} modules")


if __name__ == "__main__":
    main(sys.argv[1:])
