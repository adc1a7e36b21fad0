#!/usr/bin/env python3
"""Writes the runs on which the page's program is compared with the one for this machine, as JSON: each `{words, files}`, with the bytes of
the files in base 64. They are all commands on each text of examples/, with the event file beside it, and all cases of tests/."""
import base64
import glob
import json
import os
import sys

TOP = os.path.join(os.path.dirname(os.path.abspath(__file__)), "..", "..")
sys.dont_write_bytecode = True
sys.path.insert(0, os.path.join(TOP, "tools"))
import cases  # noqa: E402

COMMANDS = ["check", "explain", "format", "migrate"]
encoded = lambda data: base64.b64encode(data).decode()


def of_examples():
    for path in sorted(glob.glob(f"{TOP}/examples/**/*.rsml", recursive=True)):
        files = {"s.rsml": encoded(open(path, "rb").read())}
        for command in COMMANDS:
            yield {"words": [command, "s.rsml"], "files": files, "of": os.path.relpath(path, TOP)}
        events = f"{path[:-5]}.events"
        if os.path.exists(events):
            files = {**files, "e.events": encoded(open(events, "rb").read())}
            yield {"words": ["simulate", "s.rsml", "e.events"], "files": files, "of": os.path.relpath(path, TOP)}


def of_tests():
    for path in sorted(glob.glob(f"{TOP}/tests/**/*.cases", recursive=True)):
        for case in cases.cases_of(path)[1]:
            files = {name: encoded(cases.text_of(lines, os.path.dirname(path))) for name, lines in case.files.items()}
            # The answer that is stored beside the case has to come, too.
            yield {"words": case.words, "files": files, "of": case.place, "status": case.status, "answer": encoded(case.answer)}


json.dump([*of_examples(), *of_tests()], sys.stdout)
