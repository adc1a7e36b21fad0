#!/usr/bin/env python3
"""Runs PROGRAM on the cases in tests/ and tells where it does not answer what is stored.

    tools/cases.py PROGRAM [FILE..]          compares; with names of case files these alone
    tools/cases.py --write PROGRAM FILE..    stores what it writes: to be read before it is kept

The form of a case file is in tests/README.md. The last line is `N cases right, M wrong`."""
import difflib
import glob
import os
import re
import shlex
import subprocess
import sys
import tempfile
from concurrent.futures import ThreadPoolExecutor
from functools import partial

HERE = os.path.dirname(os.path.abspath(__file__))
ESCAPE = re.compile(rb"\\(?:u\{([0-9a-f]+)\}|x([0-9a-f]{2})|(\\))")
REPEATED = re.compile(rb"\\for ([0-9]+) (.*)\n")


class Case:
    """One run: its words, the lines of the files that lie where it runs, and its answer."""

    def __init__(self, path, place, words):
        self.path, self.place, self.words, self.files, self.status, self.answer = path, place, words, {}, None, b""


def code(found):
    """Returns the bytes that an escape stands for."""
    return chr(int(found[1], 16)).encode() if found[1] else bytes([int(found[2], 16)]) if found[2] else b"\\"


def plain(line):
    """Returns the bytes that a line of a case file stands for."""
    repeated = REPEATED.fullmatch(line)
    if repeated:
        return b"".join(repeated[2].replace(b"@", b"%04d" % at) + b"\n" for at in range(int(repeated[1])))
    if line.endswith(b"\\\n") and not line.endswith(b"\\\\\n"):
        line = line[:-2]
    return ESCAPE.sub(code, line)


def text_of(lines, folder):
    """Returns the bytes that the lines of a file stand for; files that they name lie in the folder of the case file."""
    text, old = b"", b""
    for line in lines:
        word, _, rest = line.rstrip(b"\n").partition(b" ")
        if word == b"\\file":
            text += open(os.path.join(folder, rest.decode()), "rb").read()
        elif word == b"\\instead":
            old = ESCAPE.sub(code, rest)
        elif word == b"\\write":
            if old not in text:
                raise SystemExit(f"tests: {old} does not stand in the text")
            text = text.replace(old, ESCAPE.sub(code, rest), 1)
        else:
            text += plain(line)
    return text


def stored(text):
    """Returns the lines of a case file that stand for these bytes."""
    lines = []
    for line in re.findall(rb"[^\n]*\n|[^\n]+", text):
        whole = line.endswith(b"\n")
        shown = line.rstrip(b"\n").decode("utf-8", "surrogateescape").replace("\\", "\\\\")
        escape = lambda it: f"\\x{ord(it[0]) - 0xDC00:02x}" if 0xDC00 <= ord(it[0]) <= 0xDFFF else f"\\u{{{ord(it[0]):x}}}"
        lines.append(re.sub(r"[^ -~]", escape, shown) + ("\n" if whole else "\\\n"))
    return "".join(lines)


def cases_of(path):
    """Returns the lines before the first case of a file, and its cases."""
    head, cases, into = [], [], None
    for number, line in enumerate(open(path, "rb"), 1):
        if line.startswith(b"==== ") or line == b"====\n":
            cases.append(Case(path, f"{os.path.relpath(path)}:{number}", shlex.split(line[5:].decode())))
        elif line.startswith(b"---- answers "):
            cases[-1].status, into = int(line.split()[2]), None
        elif line.startswith(b"---- "):
            into = line[5:].decode().strip()
            cases[-1].files[into] = []
        elif not cases:
            head.append(line.decode())
        elif into:
            cases[-1].files[into].append(line)
        else:
            cases[-1].answer += plain(line)
    return head, cases


def answers_on_texts(folder, command):
    """Each answer of a folder of cases to a command on two texts, plain or explained, that finds no fault: its place, the texts, and what is
    stored without comment lines, with the status."""
    for path in sorted(glob.glob(f"{folder}/*.cases")):
        for case in cases_of(path)[1]:
            words = case.words[1:] if case.words[0] == "explain" else case.words
            if words[0] == command and len(words) == 3 and case.status < 2:
                texts = [text_of(case.files[word], os.path.dirname(path)).decode() for word in words[1:]]
                told = "".join(line for line in case.answer.decode().splitlines(True) if not line.startswith("# "))
                yield case.place, texts, (told, case.status)


def run(program, case):
    """Returns the status with which the program ends on a case, and what it writes."""
    with tempfile.TemporaryDirectory() as folder:
        for name, lines in case.files.items():
            with open(f"{folder}/{name}", "wb") as it:
                it.write(text_of(lines, os.path.dirname(case.path)))
        ran = subprocess.run([program, *case.words], cwd=folder, stdin=subprocess.DEVNULL, capture_output=True)
    return ran.returncode, ran.stdout


def tell(case, status, answer):
    """Prints how an answer differs from the stored one."""
    print(f"{case.place}: `{shlex.join(case.words)}` has status {status}, wanted {case.status}")
    for line in list(difflib.unified_diff(stored(case.answer).splitlines(), stored(answer).splitlines(), "stored", "written", lineterm="", n=1))[:12]:
        print(f"    {line}")


def written(head, cases):
    """Returns the text of a case file."""
    parts = ["".join(head)]
    for case in cases:
        parts.append(f"==== {shlex.join(case.words)}".rstrip() + "\n")
        parts += [f"---- {name}\n{b''.join(lines).decode()}" for name, lines in case.files.items()]
        parts.append(f"---- answers {case.status}\n{stored(case.answer)}")
    return "".join(parts)


def main(words):
    is_writing = words[:1] == ["--write"]
    words = words[is_writing:]
    if not words or (is_writing and len(words) < 2):
        print(__doc__)
        return 2
    program, paths = os.path.abspath(words[0]), words[1:]
    right = wrong = 0
    runs = ThreadPoolExecutor(os.cpu_count())
    for path in paths or sorted(glob.glob(f"{HERE}/../tests/**/*.cases", recursive=True)):
        head, cases = cases_of(path)
        for case, (status, answer) in zip(cases, runs.map(partial(run, program), cases)):
            if (status, answer) == (case.status, case.answer):
                right += 1
            elif is_writing:
                case.status, case.answer = status, answer
            else:
                wrong += 1
                tell(case, status, answer)
        if is_writing:
            with open(path, "w") as it:
                it.write(written(head, cases))
    print(f"{right} cases right, {wrong} wrong")
    return 1 if wrong or not right else 0


if __name__ == "__main__":
    sys.exit(main(sys.argv[1:]))
