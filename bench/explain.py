#!/usr/bin/env python3
"""Measures `explain` beside `check` of the same text, on texts on which notes could take long.

    bench/explain.py PROGRAM

A line for each text: the processor seconds of both, and three times those of `check` and a second, which is the aim of `explain`."""
import os
import resource
import subprocess
import sys
import tempfile

ENDING = "event Tick;\nreceive Beat () raise Tick;\nstate S one { default X; state X; stay X on Tick when always; }\n"
COMPARED = """specification A; range R 0 .. 99999; input X [8] : R = 0; event Tick;
receive Beat [8] (X[this]) raise Tick;
"""


def unused(count, end):
    return "specification A;" + end + "".join(f"constant C{number} = {number};{end}" for number in range(count)) + ENDING


def columns(count):
    macros = "".join(f"macro M{number} {{ X[1] < X[2] | {'T ' * 31}T; }}\n" for number in range(count))
    return COMPARED + macros + ENDING.partition("\n")[2].partition("\n")[2]


def crossing():
    """A macro of eight comparisons that share their inputs, as dear as any."""
    places = [(1, 8, 7, 3), (3, 6, 7, 8), (5, 8, 2, 7), (1, 5, 6, 2), (7, 6, 4, 5), (6, 5, 4, 7), (5, 1, 7, 3), (8, 3, 4, 6)]
    rows = "".join(f"X[{a}] - X[{b}] < X[{c}] - X[{d}] | T;\n" for a, b, c, d in places)
    return COMPARED + f"macro M {{\n{rows}}}\n" + ENDING.partition("\n")[2].partition("\n")[2]


TEXTS = {
    "16,000 constants that nothing uses": unused(16000, "\n"),
    "30,000 of them on one line": unused(30000, " "),
    "4,000 macros of 32 equal columns": columns(4000),
    "comparisons that share their inputs": crossing(),
}


def seconds(program, command, name):
    before = resource.getrusage(resource.RUSAGE_CHILDREN).ru_utime
    subprocess.run([program, command, name], stdout=subprocess.DEVNULL, timeout=600, check=False)
    return resource.getrusage(resource.RUSAGE_CHILDREN).ru_utime - before


def main(words):
    if len(words) != 1:
        print(__doc__)
        return 2
    program = os.path.abspath(words[0])
    with tempfile.TemporaryDirectory() as folder:
        print(f"{'text':40} {'check':>8} {'explain':>8} {'aim':>8}")
        for what, text in TEXTS.items():
            name = f"{folder}/a.rsml"
            with open(name, "w", encoding="utf-8") as file:
                file.write(text)
            checked, explained = seconds(program, "check", name), seconds(program, "explain", name)
            print(f"{what:40} {checked:6.2f} s {explained:6.2f} s {3 * checked + 1:6.2f} s")
    return 0


if __name__ == "__main__":
    sys.exit(main(sys.argv[1:]))
