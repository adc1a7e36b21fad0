#!/usr/bin/env python3
"""Writes the column "Cited by" of docs/definitions.md, and says what that page lacks.

    tools/cited_by.py            writes the column
    tools/cited_by.py --check    writes nothing; the status is 1 where the column or the page is not right

A row names files of specs/ by their path without ending, and may name definitions in them:
`rsml_syntax`: `text/Lexing` (`Lexes`). It is cited by each crate whose code or definitions import one of these
definitions. A row with `src/NAME.rt` stands for the types of that file.

A file is told as missing where no row names it. A row belongs under one of the two last headings exactly where no clause
of a public call speaks of its definitions, neither itself nor through other definitions. This is read off the text, name
by name."""

import re
import sys
from pathlib import Path

TOP = Path(__file__).resolve().parent.parent
PAGE = TOP / "docs/definitions.md"
HELPERS = ("## Helpers", "## Stated ahead of the program (later)")
WORD = re.compile(r"[^\s(){},;\[\]≔]+")
HEAD = re.compile(r"((?:(?:pub|abbrev|unfoldable|opaque|data|record)\s+)*)([^\s:(){},]+)")


def code_of(text):
    """The text of a file without its comments."""
    return re.sub(r"(?m)(?:(?<=\s)|^)(?:--|//).*$", "", text)


def imports_of(text):
    """The imports of a file: the path of a module, and the names that are taken of it by the names that they get here.
    A module that is imported under a name of its own has None in place of the names, and that name."""
    found = []
    for item in re.findall(r"(?m)^\s*(?:pub )?(?:ghost )?use\s+Rattle\.([^;\n]*(?:\n[ \t}][^;\n]*)*)", text):
        path, brace, names = item.partition(".{")
        if not brace:
            path, _, alias = item.partition(" as ")
            last = path.strip().rpartition(".")[2]
            found.append((path.strip(), None, alias.strip().rstrip(";") or last))
            continue
        names = [it.strip() for it in names.replace("}", "").split(",")]
        taken = {}
        for name in filter(None, names):
            was, _, now = name.partition(" as ")
            taken[(now or was).strip()] = was.strip()
        found.append((path, taken, None))
    return found


def split_path(path):
    """The crate and the module of an import's path."""
    crate, _, rest = path.partition(".specs.")
    return crate, rest.replace(".", "/")


class Files:
    """All definitions of the repository: the words of each, and what these words stand for."""

    def __init__(self):
        self.uses, self.names = {}, {}
        for file in sorted(TOP.glob("crates/*/specs/**/*.antt")):
            crate = file.relative_to(TOP / "crates").parts[0]
            module = str(file.relative_to(TOP / "crates" / crate / "specs"))[: -len(".antt")]
            text = code_of(file.read_text(encoding="utf-8"))
            if module == "Lib" or not re.sub(r"(?m)^\s*(pub )?mod .*$", "", text).strip():
                continue
            self.read(crate, module, text)

    def read(self, crate, module, text):
        imports = imports_of(text)
        body = re.sub(r"(?m)^(?:pub )?use\s[^\n]*(?:\n[ \t}][^\n]*)*", "", text)
        body = re.sub(r"(?m)^(?:\w+ )*mutual\n((?:[ \t][^\n]*(?:\n|\Z)|\n)*)", lambda it: re.sub(r"(?m)^  ", "", it[1]), body)
        parts = {}
        for item in re.findall(r"(?m)^\S[^\n]*(?:\n(?:[ \t][^\n]*)?)*", body):
            found = HEAD.match(item)
            if not found:
                continue
            words, name = found.groups()
            parts.setdefault(name, []).append(item)
            if "data" in words or "record" in words:
                for inner in re.findall(r"(?m)^  (?:pub )?([^\s:(){},]+)\s*:", item):
                    self.names[crate, module, inner] = (crate, module, name)
        for name, items in parts.items():
            self.names[crate, module, name] = (crate, module, name)
            self.uses[crate, module, name] = (set(WORD.findall(" ".join(items))), imports)

    def stands_for(self, words, imports, crate=None, module=None):
        """The definitions that words in a file stand for."""
        found = {self.names[crate, module, it] for it in words if (crate, module, it) in self.names}
        for path, taken, alias in imports:
            of, inside = split_path(path)
            if taken is None:
                said = [it.partition(".")[2] for it in words if it.startswith(f"{alias}.")]
            else:
                said = [was for now, was in taken.items() if now in words]
            for it in said:
                key = (of, inside, it.partition(".")[0])
                if key in self.names:
                    found.add(self.names[key])
        return found

    def reached(self, first):
        """The definitions from these on: themselves, and what they speak of."""
        left, found = [*first], set()
        while left:
            key = left.pop()
            if key not in found and key in self.uses:
                found.add(key)
                words, imports = self.uses[key]
                left += self.stands_for(words, imports, *key[:2])
        return found


def exported(crate):
    """The names that a crate passes on at its root."""
    text = (TOP / "crates" / crate / "src/lib.rt").read_text(encoding="utf-8")
    items = re.findall(r"pub use ([^;]*);", code_of(text))
    return {it.strip() for item in items for it in re.findall(r"\w+", item.rpartition("::")[2])}


def clauses(text, names):
    """The words of the clauses of public calls in a file of code, and of what contracts see of public types."""
    found, within, is_of_trait, is_on = [], "", False, False
    for line in text.split("\n"):
        opened = re.match(r"(?:pub )?(?:impl\b(?:<.*?>)?(?: .*? for)?|trait|struct|enum) ?(\w+)", line)
        if opened:
            within, is_of_trait = opened[1], bool(re.match(r"(?:pub )?trait|impl\b.* for ", line))
        if re.match(r"(?:pub )?fn ", line):
            within = ""
        call = re.match(r"\s*(pub )?(?:const )?fn (\w+)", line)
        if call:
            is_public = bool(call[1]) or is_of_trait
            is_on = is_public and (within or call[2]) in names and not line.rstrip().endswith(("{", ";"))
            continue
        if re.match(r"\s*ghost (?!use|invariant)", line) and within in names:
            found.append(line)
        if is_on:
            is_on = line.strip() != "{"
            found.append(line)
            is_on = is_on and not line.rstrip().endswith(";")
    return set(WORD.findall(" ".join(found)))


def public(files):
    """The definitions that the clauses of public calls speak of, also through others."""
    first = set()
    for root in sorted(TOP.glob("crates/*/src/lib.rt")):
        crate = root.relative_to(TOP / "crates").parts[0]
        for file in sorted(root.parent.glob("**/*.rt")):
            text = code_of(file.read_text(encoding="utf-8"))
            first |= files.stands_for(clauses(text, exported(crate)), imports_of(text))
    return files.reached(first)


def citations(files):
    """The crates that import each definition: those by code, and those by definitions."""
    code, specs, types = {}, {}, {}
    for file in sorted([*TOP.glob("crates/*/src/**/*.rt"), *TOP.glob("crates/*/specs/**/*.antt")]):
        crate = file.relative_to(TOP / "crates").parts[0]
        text = code_of(file.read_text(encoding="utf-8"))
        words, imports = set(WORD.findall(text)), imports_of(text)
        into = code if file.suffix == ".rt" else specs
        for path, _, _ in imports:
            of, inside = split_path(path)
            if inside.startswith("declared/"):
                types.setdefault((of, inside.split("/")[1]), set()).add(crate)
        for key in files.stands_for(words, imports):
            into.setdefault(key, set()).add(crate)
    return code, specs, types


def stated(cell):
    """The files that the cell "Stated in" names, each with the definitions that it names."""
    found = []
    for part in cell.split(";"):
        crate, _, rest = part.partition(":")
        crate = crate.strip().strip("`")
        for path, names in re.findall(r"`([\w/.]+)`(?: \(([^)]*)\))?", rest):
            found.append((crate, path, re.findall(r"`([^`]+)`", names)))
    return found


def main(is_check):
    files = Files()
    code, specs, types = citations(files)
    seen, wrong, lines, is_helper, is_told = public(files), [], [], False, set()
    for line in PAGE.read_text(encoding="utf-8").split("\n"):
        if line.startswith("## "):
            is_helper = line in HELPERS
        cells = [it.strip() for it in re.split(r"(?<!\\)\|", line)]
        if not line.startswith("| ") or len(cells) != 6 or cells[4] == "Cited by":
            lines.append(line)
            continue
        by, has_public, places = set(), False, stated(cells[3])
        for crate, path, names in places:
            if path.startswith("src/"):
                by |= types.get((crate, Path(path).stem), set())
                has_public = True
                continue
            all_names = [key for key in files.uses if key[:2] == (crate, path)]
            if not all_names:
                wrong.append(f"{cells[1]}: there is no file {crate}: {path}")
            is_told.add((crate, path))
            for name in names:
                if (crate, path, name) not in files.names:
                    wrong.append(f"{cells[1]}: {crate}: {path} has no {name}")
            keys = {files.names[crate, path, it] for it in names if (crate, path, it) in files.names} or set(all_names)
            for key in keys:
                by |= code.get(key, set()) | specs.get(key, set())
            has_public = has_public or bool(keys & seen)
        if places and is_helper == has_public:
            wrong.append(f"{cells[1]}: a public clause {'speaks of it, so it is no helper' if is_helper else 'speaks of none of it, so it is a helper'}")
        cells[4] = ", ".join(f"`{it}`" for it in sorted(by))
        lines.append("| " + " | ".join(cells[1:5]) + " |" if places else line)
    wrong += [f"no row names {crate}: {path}" for crate, path in sorted({key[:2] for key in files.uses} - is_told)]
    text = "\n".join(lines)
    for it in wrong:
        print(it)
    if is_check:
        is_same = text == PAGE.read_text(encoding="utf-8")
        print("the column is right" if is_same else "the column is not right: run tools/cited_by.py")
        return int(bool(wrong) or not is_same)
    PAGE.write_text(text, encoding="utf-8")
    return 0


if __name__ == "__main__":
    sys.exit(main("--check" in sys.argv[1:]))
