#!/usr/bin/env python3
"""A specification with its guards written otherwise: bench/rewritten.py FILE [mistaken]

The rows and the columns of each table stand in the opposite order, and each comparison of two operands is turned round. It means the same.
With `mistaken` the last cell T or F of the text is turned besides. Comments are left out."""

import re
import sys
from pathlib import Path

TURNED = {"<": ">", "<=": ">=", ">": "<", ">=": "<=", "=": "=", "!=": "!="}
OPERAND = r"(?:previous )?\w+(?:\s?\[\w+\])?"


def row(text):
    phrase, cells = text.rsplit("|", 1)
    phrase = re.sub(rf"(^|: )({OPERAND}) ?([<>]=?|!?=) ?({OPERAND}) ?$", lambda it: f"{it[1]}{it[4]} {TURNED[it[3]]} {it[2]} ", phrase.strip())
    return f" {phrase} | {' '.join(cells.split()[::-1])};"


def table(found):
    rows = found[1].split(";")[:-1]
    return "{" + "".join(map(row, rows[::-1])) + " }"


def rewritten(text):
    return re.sub(r"\{([^{}]*\|[^{}]*)\}", table, re.sub(r"#.*", "", text))


def mistaken(text):
    """The text with its last cell T or F turned."""
    places = list(re.finditer(r"(?<=[|TF.] )[TF](?=[ ;])", text))
    at = places[-1].start()
    return f"{text[:at]}{'F' if text[at] == 'T' else 'T'}{text[at + 1 :]}"


def main():
    text = rewritten(Path(sys.argv[1]).read_text(encoding="utf-8"))
    print(mistaken(text) if sys.argv[2:] == ["mistaken"] else text, end="")


if __name__ == "__main__":
    main()
