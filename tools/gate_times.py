#!/usr/bin/env python3
"""Prints how long the gate takes, crate by crate.

    tools/gate_times.py          runs `rt ci` here, from nothing, and watches it
    tools/gate_times.py PID      watches the `rt ci` that has this process number

It looks twice a second at the provers that the gate runs: which crate each is for, and whether it proves the crate, its
tests or an edit that must be refused. At the end it prints a table. The seconds are those from the start of a prover to
its end, added up over the edits; the provers run side by side, so the columns add up to more than the whole. The last
column has the processor time of all of them. The gate's own lines go to standard error, and the status is the gate's."""

import os
import re
import subprocess
import sys
import time
from pathlib import Path

TICKS = os.sysconf("SC_CLK_TCK")
PAUSE = 0.5
KINDS = ("proof", "tests", "edits")


def text_of(path):
    """The text of a file of /proc, or nothing where its process has ended."""
    try:
        return Path(path).read_text(encoding="utf-8", errors="replace")
    except OSError:
        return ""


def processes():
    """All processes: of each its parent, when it began in seconds since the machine did, and its processor seconds with those of its ended children."""
    found = {}
    for name in os.listdir("/proc"):
        fields = text_of(f"/proc/{name}/stat").rpartition(") ")[2].split() if name.isdigit() else []
        if len(fields) > 19:
            found[int(name)] = int(fields[1]), int(fields[19]) / TICKS, sum(map(int, fields[11:15])) / TICKS
    return found


def work_of(process):
    """The crate that a prover works for, and what it proves of it; None of another process."""
    words = text_of(f"/proc/{process}/cmdline").split("\0")
    if os.path.basename(words[0]) != "rattle" or "--crate-name" not in words:
        return None
    try:
        folder = os.path.basename(os.readlink(f"/proc/{process}/cwd"))
    except OSError:
        return None
    kind = "edits" if folder.startswith("rt-edit-") else "tests" if "--test" in words else "proof"
    return words[words.index("--crate-name") + 1], kind


class Gate:
    """What was seen of the provers that one run of rt started: the work of each, when it began and was last seen, and its processor time."""

    def __init__(self, rt):
        self.rt, self.work, self.began, self.seen, self.processor = rt, {}, {}, {}, {}

    def look(self):
        found, now = processes(), time.clock_gettime(time.CLOCK_BOOTTIME)
        within = {}
        for process in found:
            above = [process]
            while above[-1] in found and above[-1] != self.rt:
                above.append(found[above[-1]][0])
            if above[-1] == self.rt and len(above) > 1:
                within.setdefault(above[-2], []).append(process)
        for top, below in within.items():
            key = top, found[top][1]
            # (a prover's first words are those of the command that starts it)
            self.work[key] = work_of(top) or self.work.get(key)
            self.began[key], self.seen[key] = found[top][1], now
            self.processor[key] = max(self.processor.get(key, 0), sum(found[it][2] for it in below))

    def watch(self, is_running):
        while is_running():
            self.look()
            time.sleep(PAUSE)

    def seconds(self, crate, kind):
        keys = [it for it, work in self.work.items() if work == (crate, kind)]
        return sum(self.seen[it] - self.began[it] + PAUSE / 2 for it in keys)

    def processor_seconds(self, crate):
        return sum(self.processor[it] for it, work in self.work.items() if work and work[0] == crate)


def crates():
    """The crates in the order of crates.txt."""
    rows = [it.partition("#")[0] for it in Path("crates.txt").read_text(encoding="utf-8").split("\n")]
    return [it.partition(":")[0].split()[0] for it in rows if it.strip()]


def functions(crate):
    """How many functions the crate's code has, those of its tests apart."""
    files = [it for it in Path(f"crates/{crate}/src").glob("**/*.rt") if "tests" not in it.parts and it.name != "tests.rt"]
    return sum(len(re.findall(r"(?m)^\s*(?:pub(?:\(\w+\))? )?(?:const )?fn ", text_of(it))) for it in files)


def shown(number):
    return f"{number:,.0f}" if number >= 0.5 else ""


def table(gate, whole):
    lines = ["| Crate | Functions | Proof, s | Tests, s | Edits | Edits, s | Processor, s |", "|---|--:|--:|--:|--:|--:|--:|"]
    total = [0] * 6
    for crate in crates():
        proof, tests, edits = (gate.seconds(crate, it) for it in KINDS)
        row = [functions(crate), proof, tests, len(list(Path(f"crates/{crate}/must-fail").glob("*.edit"))), edits, gate.processor_seconds(crate)]
        total = [one + other for one, other in zip(total, row)]
        lines.append(" | ".join([f"| `{crate}`", *map(shown, row)]) + " |")
    lines.append(" | ".join(["| all", *map(shown, total)]) + " |")
    minutes, seconds = divmod(round(whole), 60)
    return "\n".join([*lines, "", f"The whole took {minutes} minutes and {seconds} seconds, on {len(os.sched_getaffinity(0))} processors."])


def gate_from_nothing():
    """The command of a gate that takes nothing from an earlier one; a toolchain that keeps what was proved has a word for that."""
    said = subprocess.run(["rt", "help"], capture_output=True, text=True)
    return ["rt", "ci", "--anew"] if "--anew" in said.stdout + said.stderr else ["rt", "ci"]


def main(words):
    if len(words) > 1 or words and not words[0].isdigit():
        print(__doc__, file=sys.stderr)
        return 2
    status, started = 0, time.clock_gettime(time.CLOCK_BOOTTIME)
    if words:
        gate = Gate(int(words[0]))
        started = processes().get(gate.rt, (0, started, 0))[1]
        gate.watch(lambda: gate.rt in processes())
    else:
        ran = subprocess.Popen(gate_from_nothing(), stdin=subprocess.DEVNULL, stdout=sys.stderr)
        gate = Gate(ran.pid)
        gate.watch(lambda: ran.poll() is None)
        status = ran.returncode
    print(table(gate, time.clock_gettime(time.CLOCK_BOOTTIME) - started))
    return status


if __name__ == "__main__":
    sys.exit(main(sys.argv[1:]))
