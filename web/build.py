#!/usr/bin/env python3
"""Puts the page into one file: build.py MODULE.wasm FACTS.json OUT.html

FACTS.json has what About says: `about`, `claim`, `toolchain` and `object`. The same inputs give the same bytes."""
import base64
import gzip
import hashlib
import json
import os
import re
import sys

HERE = os.path.dirname(os.path.abspath(__file__))
EXAMPLES = os.path.join(HERE, "..", "examples")
IMPORT = re.compile(r"^import \{ (.*?) \} from '\./(.*?)\.mjs';\n", re.M)
EXPORT = re.compile(r"^export (?=(?:async )?(?:function|const|class) ([\w$]+))", re.M)


def read(*path):
    with open(os.path.join(HERE, *path), encoding="utf-8") as it:
        return it.read()


def bundle(name):
    """Returns a script of a module and of those that it imports: each is a function that gives what it exports."""
    parts, done, exported = [], set(), {}

    def add(module):
        if module in done:
            return
        done.add(module)
        text = read("src", f"{module}.mjs")
        for words, other in IMPORT.findall(text):
            add(other)
            for word in words.split(", "):
                if word.split()[0] not in exported[other]:
                    raise SystemExit(f"build.py: {other}.mjs does not export {word}")
        names = exported[module] = EXPORT.findall(text)
        text = IMPORT.sub(lambda it: f"const {{ {it[1].replace(' as ', ': ')} }} = modules.{it[2]};\n", EXPORT.sub("", text))
        if re.search(r"^(import|export)\b", text, re.M):
            raise SystemExit(f"build.py: {module}.mjs imports or exports in a form that this script does not know")
        parts.append(f"modules.{module} = (() => {{\n{text}return {{ {', '.join(names)} }};\n}})();\n")

    add(name)
    return f"'use strict';\nconst modules = {{}};\n{''.join(parts)}"


def packed(data):
    return base64.b64encode(gzip.compress(data, 9, mtime=0)).decode()


def examples():
    """Returns the texts of the examples by their names, and the groups of the menu."""
    files, groups = {}, []

    def group(label, rows):
        listed = []
        for name, shown, events in rows:
            text = lambda path: open(os.path.join(EXAMPLES, path), encoding="utf-8", newline="").read()
            files[name] = {"text": text(name)}
            if events and os.path.exists(os.path.join(EXAMPLES, events)):
                files[name]["events"] = text(events)
            listed.append({"name": name, "label": shown})
        groups.append({"label": label, "files": listed})

    whole = sorted(it for it in os.listdir(EXAMPLES) if it != "guide" and os.path.isdir(os.path.join(EXAMPLES, it)))
    guide = sorted(it[:-5] for it in os.listdir(os.path.join(EXAMPLES, "guide")) if it.endswith(".rsml"))
    title = lambda it: it.replace("_", " ").capitalize()
    group("First steps", [
        ("alerter.rsml", "Altitude alerter, with two mistakes", "alerter_mended.events"),
        ("alerter_mended.rsml", "Altitude alerter, mended", "alerter_mended.events"),
        ("lamp.rsml", "Lamp", "lamp.events"),
    ])
    group("Whole specifications", [(f"{it}/{it}.rsml", title(it), f"{it}/{it}.events") for it in whole])
    mistaken = [(f"{it}/mistaken.rsml", f"{title(it)}, mistaken", f"{it}/{it}.events") for it in whole]
    unseen = [it for it in whole if os.path.exists(os.path.join(EXAMPLES, it, "unseen.rsml"))]
    mistaken += [(f"{it}/unseen.rsml", f"{title(it)}, with a mistake that check cannot see", f"{it}/{it}.events") for it in unseen]
    group("The same, each with one mistake", mistaken)
    group("Many aircraft", [
        ("tcas.rsml", "Advice on thirty aircraft", "tcas.events"),
        ("intruders.rsml", "Warnings of thirty aircraft", ""),
        ("intruders_mistaken.rsml", "The same, mistaken", ""),
    ])
    group("Texts of the guide", [(f"guide/{it}.rsml", it.replace("_", " "), f"guide/{it}.events") for it in guide])
    return files, groups


def main(module_path, facts_path, out):
    with open(module_path, "rb") as it:
        module = it.read()
    with open(facts_path, encoding="utf-8") as it:
        facts = json.load(it)
    files, groups = examples()
    data = {"files": files, "groups": groups, "module": {"size": len(module)}, **facts}
    style, script = read("page.css"), bundle("main")
    allow = lambda text: f"'sha256-{base64.b64encode(hashlib.sha256(text.encode()).digest()).decode()}'"
    # No source is allowed but the page's own script and style, and no connection at all.
    policy = "; ".join([
        "default-src 'none'", f"script-src {allow(script)} 'wasm-unsafe-eval'", f"style-src {allow(style)}", "worker-src blob:",
        "connect-src 'none'", "form-action 'none'", "base-uri 'none'",
    ])
    parts = {
        "POLICY": policy, "STYLE": style, "SCRIPT": script, "WORKER": bundle("worker"),
        "DATA": packed(json.dumps(data, sort_keys=True).encode()), "MODULE": packed(module),
    }
    page = re.sub(r"@@([A-Z]+)@@", lambda it: parts[it[1]], read("page.html"))
    with open(out, "w", encoding="utf-8", newline="\n") as it:
        it.write(page)
    print(f"{out}: {len(page.encode()):,} bytes, SHA-256 {hashlib.sha256(page.encode()).hexdigest()}")


if __name__ == "__main__":
    if len(sys.argv) != 4:
        sys.exit(__doc__)
    main(*sys.argv[1:])
