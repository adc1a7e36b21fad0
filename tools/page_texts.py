#!/usr/bin/env python3
"""Compares what the pages show with the files of examples/, and these with what the program writes.

    tools/page_texts.py                    compares the pages with the files
    tools/page_texts.py PROGRAM            compares also what `PROGRAM` writes with the files that have its answers
    tools/page_texts.py --write            writes into the pages what the files have
    tools/page_texts.py --answers PROGRAM  writes into the files of answers what `PROGRAM` writes

A comment before a block of code names its file, and the block shows this file whole; or it names a part of the file, which is some of
its lines in a row:

    <!-- examples/lamp.rsml -->
    <!-- part of examples/tcas.trace -->
    <!-- examples/guide/10_fault.trace = simulate examples/guide/10_doors.rsml examples/guide/10_fault.events -->

NAME.report has what `check NAME.rsml` writes, NAME.explained what `explain NAME.rsml` does, NAME.trace what
`simulate NAME.rsml NAME.events` does, NAME.counts what `cover` does with them, NAME.gaps what `gaps NAME.rsml 5` does, and NAME.proof
what `prove NAME.rsml NAME.claims` does, where the comment tells no other command; NAME.same has always one there. Those of examples/guide/ are compared also where no page shows them. Every example of these pages has to have such a
comment: a block of the language `rsml` without one is told. Comparing with the program, each file of examples/guide/ has to be one that
a page or an answer uses. The last line is `N texts right, M wrong`."""

import re
import subprocess
import sys
from pathlib import Path

TOP = Path(__file__).resolve().parent.parent
PAGES = "docs/guide.md", "docs/language.md", "README.md"
GUIDE = "examples/guide"
ANSWERS = ".report", ".explained", ".trace", ".counts", ".gaps", ".proof", ".same"
BLOCK = re.compile(r"(?m)^(?:<!-- (part of )?(examples/\S+)(?: = ([^>]*))? -->\n\n?)?```(\w*)\n(.*?)^```$", re.S)


class Told:
    """How many texts are right, and each that is wrong."""

    def __init__(self):
        self.right = self.wrong = 0

    def tell(self, is_right, message):
        self.right, self.wrong = self.right + is_right, self.wrong + (not is_right)
        if not is_right:
            print(message)

    def end(self):
        print(f"{self.right} texts right, {self.wrong} wrong")
        return int(self.wrong > 0)


def content(name):
    file = TOP / name
    return file.read_text(encoding="utf-8") if file.exists() else None


def blocks(page):
    """Each block of a page: its line, whether it shows a part, its file, the command of an answer, its language and its text."""
    text = content(page)
    for found in BLOCK.finditer(text):
        part, name, command, language, shown = found.groups()
        yield text.count("\n", 0, found.start()) + 1, bool(part), name, command, language, shown


def is_shown(shown, text, part):
    return text is not None and (shown == text or part and f"\n{shown}" in f"\n{text}")


def compare_pages(told):
    for page in PAGES:
        for line, part, name, _, language, shown in blocks(page):
            if name:
                told.tell(is_shown(shown, content(name), part), f"{page}:{line}: this is not what {name} has")
            elif language == "rsml":
                told.tell(False, f"{page}:{line}: no file is named")


def write_pages():
    def filled(found):
        part, name, command, language, _ = found.groups()
        text = None if part or not name else content(name)
        if text is None:
            return found[0]
        end = f" = {command}" if command else ""
        return f"<!-- {name}{end} -->\n```{language}\n{text}```"

    for page in PAGES:
        (TOP / page).write_text(BLOCK.sub(filled, content(page)), encoding="utf-8")


def command_of(name):
    stem, _, kind = name.rpartition(".")
    words = {"report": ["check"], "explained": ["explain"], "trace": ["simulate"], "counts": ["cover"], "gaps": ["gaps"], "proof": ["prove"]}[kind] + [f"{stem}.rsml"]
    return words + {"trace": [f"{stem}.events"], "counts": [f"{stem}.events"], "gaps": ["5"], "proof": [f"{stem}.claims"]}.get(kind, [])


def answers():
    """Each file of answers, with its command."""
    shown = [(name, command) for page in PAGES for _, _, name, command, _, _ in blocks(page) if name]
    told = {name: command.split() for name, command in shown if command}
    names = [str(it.relative_to(TOP)) for it in sorted((TOP / GUIDE).rglob("*"))] + [name for name, _ in shown]
    return {name: told.get(name) or command_of(name) for name in names if name.endswith(ANSWERS)}


def written(program, command):
    return subprocess.run([program, *command], cwd=TOP, capture_output=True, check=False).stdout.decode()


def compare_answers(told, program):
    used = {name for page in PAGES for _, _, name, _, _, _ in blocks(page)}
    for name, command in answers().items():
        used |= {name, *command}
        found = written(program, command)
        told.tell(found == content(name), f"{name}: {' '.join(command)} writes\n{found}")
    for file in sorted((TOP / GUIDE).rglob("*.*")):
        name = str(file.relative_to(TOP))
        told.tell(name in used, f"{name}: nothing uses it")


def main():
    words = sys.argv[1:]
    if words == ["--write"]:
        write_pages()
    if words[:1] == ["--answers"]:
        program = str(Path(words[1]).resolve())
        for name, command in answers().items():
            (TOP / name).write_text(written(program, command), encoding="utf-8")
    told = Told()
    compare_pages(told)
    if len(words) == 1 and not words[0].startswith("--"):
        compare_answers(told, str(Path(words[0]).resolve()))
    return told.end()


if __name__ == "__main__":
    sys.exit(main())
