#!/usr/bin/env python3
"""Whether the files for editors fit the notation and the program: tools/editor_words.py

Compares the words that VS Code and Vim highlight with the reserved words of docs/language.md, and tries the patterns
by which they find places on lines as `rsml explain` writes them. With `vim` on the path, its list of places is that of
vim itself. Ends with status 1 where something differs, and says what."""

import json
import os
import re
import shutil
import subprocess
import sys
import tempfile

TOP = os.path.dirname(os.path.dirname(os.path.abspath(__file__)))

# A line of the program, and its file, line, column, text and kind. Programs older than the word `error: ` leave it out.
LINES = [
    ("# cabin.rsml:24:21: error: `Upp` is not declared", ("cabin.rsml", 24, 21, "`Upp` is not declared", "error")),
    ("# cabin.rsml:24:21: `Upp` is not declared", ("cabin.rsml", 24, 21, "`Upp` is not declared", "error")),
    ("# spec/lamp 2.rsml:3:1: error: no transition is enabled", ("spec/lamp 2.rsml", 3, 1, "no transition is enabled", "error")),
    ("# a.rsml:1:1: note: the event `E` is raised by nothing", ("a.rsml", 1, 1, "the event `E` is raised by nothing", "note")),
    ("# a.rsml:9:3: Top.A[2] 12 move X -> Y", ("a.rsml", 9, 3, "Top.A[2] 12 move X -> Y", "member")),
    ("# a.rsml:9:3: Lamp 4 stay On on Tick raises E", ("a.rsml", 9, 3, "Lamp 4 stay On on Tick raises E", "member")),
    ("# a.rsml:9:3: case 2", ("a.rsml", 9, 3, "case 2", "member")),
    ("# a.rsml:9:3: case 1 of send Panel on Tick", ("a.rsml", 9, 3, "case 1 of send Panel on Tick", "member")),
]
# Lines that tell no place.
OTHERS = ["fault S2 Upp", "#     Lever = Upp | T;", "#             ^^^", "#   did you mean `Up`?", "specification Cabin"]

def text_of(path):
    with open(os.path.join(TOP, path), encoding="utf-8") as file:
        return file.read()


def reserved_words():
    block = re.search(r"The reserved words are:\n\n```text\n(.*?)```", text_of("docs/language.md"), re.S)
    return sorted(block.group(1).split())


def vscode_words():
    grammar = json.loads(text_of("editors/vscode/syntaxes/rsml.tmLanguage.json"))
    words = []
    for pattern in grammar["patterns"]:
        found = re.fullmatch(r"\\b\(\?:([A-Za-z|]+)\)\\b", pattern["match"])
        words += found.group(1).split("|") if found else []
    return sorted(words)


def vim_words():
    lines = re.findall(r"^syntax keyword \w+ (.*)$", text_of("editors/vim/syntax/rsml.vim"), re.M)
    return sorted(word for line in lines for word in line.split())


def matched(line):
    """What the problem matchers of VS Code find on a line, each as LINES has it."""
    package = json.loads(text_of("editors/vscode/package.json"))
    found = []
    for matcher in package["contributes"]["problemMatchers"]:
        pattern = matcher["pattern"]
        hit = re.match(pattern["regexp"], line)
        if hit:
            places = [hit.group(pattern[key]) for key in ("file", "line", "column", "message")]
            kind = "note" if matcher["severity"] == "info" else "error"
            found.append((places[0], int(places[1]), int(places[2]), places[3], kind))
    return found


def listed_by_vim(lines):
    """The list of places that vim makes of lines, or None where this vim runs no scripts."""
    with tempfile.TemporaryDirectory() as folder:
        answer, output = os.path.join(folder, "answer"), os.path.join(folder, "output")
        with open(output, "w", encoding="utf-8") as file:
            file.write("\n".join(lines) + "\n")
        commands = [
            "set encoding=utf-8",
            "set runtimepath+=" + os.path.join(TOP, "editors/vim"),
            "compiler rsml",
            "cgetfile " + output,
            "call writefile([json_encode(map(getqflist(), "
            "'[bufname(v:val.bufnr), v:val.lnum, v:val.col, v:val.text, v:val.type]'))], '" + answer + "')",
            "quitall!",
        ]
        script = os.path.join(folder, "script.vim")
        with open(script, "w", encoding="utf-8") as file:
            file.write("\n".join(commands) + "\n")
        subprocess.run(["vim", "-u", "NONE", "-N", "-es", "-S", script], check=False, cwd=folder)
        if not os.path.exists(answer):
            return None
        with open(answer, encoding="utf-8") as file:
            places = json.load(file)
    kinds = {"": "error", "e": "error", "n": "note", "I": "member"}
    return [(name, line, column, text, kinds.get(kind, kind)) for name, line, column, text, kind in places]


def main():
    wrong = []

    def same(what, found, wanted):
        if found != wanted:
            wrong.append(f"{what}: {found} and not {wanted}")

    words = reserved_words()
    same("words of VS Code", vscode_words(), words)
    same("words of Vim", vim_words(), words)
    for line, place in LINES:
        same(f"VS Code on {line!r}", matched(line), [] if place[4] == "member" else [place])
    for line in OTHERS:
        same(f"VS Code on {line!r}", matched(line), [])
    if shutil.which("vim"):
        mixed = [line for line, _ in LINES] + OTHERS
        listed = listed_by_vim(mixed)
        if listed is not None:
            same("Vim", listed, [place for _, place in LINES])
    for line in wrong:
        print(line)
    print(f"{len(words)} words, {len(LINES) + len(OTHERS)} lines: " + ("as they should be" if not wrong else f"{len(wrong)} differ"))
    return 1 if wrong else 0


if __name__ == "__main__":
    sys.exit(main())
