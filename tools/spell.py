#!/usr/bin/env python3
"""Brings the names of this repository's own definitions and lemmas to snake case.

usage: tools/spell.py            at the top of the repository, once, after the kit's port.py
       tools/spell.py --list     prints each old name and its new one, and writes nothing

A name is turned where a file of specs/ or proofs/ gives it a signature, or an import its alias, and a capital stands behind a small letter in
it: `isPast-near` becomes `is_past-near`. Names that begin with a capital are types, facts and modules, and stay, as do the names of src/ and the
library's words. The must-fail edits, docs/, README.md and CONTRIBUTING.md follow.
"""

import os
import re
import sys

NAME = r"[a-z][\w'-]*"
SIGNATURE = re.compile(rf"^\s*(?:unfoldable |abbrev |pub )*(?:\(?)({NAME})((?:\s+{NAME})*)\)?\s*:(?!:)", re.M)
ALIAS = re.compile(rf"\bas ({NAME})")
TOKEN = re.compile(r"(?<![\w'-])[a-z][\w'-]*")


def files(*kinds):
    for folder, dirs, names in os.walk("crates"):
        dirs[:] = sorted(d for d in dirs if d != "out")
        for n in sorted(names):
            if n.endswith(kinds):
                yield os.path.join(folder, n)


def read(path):
    with open(path, encoding="utf-8") as f:
        return f.read()


def snake(name):
    """Each capital behind a small letter or a digit begins a word; a part behind a dash that begins with a capital is a type's name."""
    parts = []
    for part in name.split("-"):
        if part[:1].islower():
            part = re.sub(r"(?<=[a-z0-9])([A-Z])", lambda m: "_" + m.group(1).lower(), part)
        parts.append(part)
    return "-".join(parts)


# Names whose plain turning a lemma in the same file has already.
OTHERWISE = {"allSound": "are_all_sound", "atRest": "is_at_rest", "inReach": "is_in_reach", "passedWords": "passed_words_of"}


def own_names():
    names = set()
    for path in files(".antt"):
        text = re.sub(r"--.*", "", read(path))
        for m in SIGNATURE.finditer(text):
            names.add(m.group(1))
            names.update(m.group(2).split())
        names.update(ALIAS.findall(text))
    return {n for n in names if snake(n) != n}


def main(argv):
    table = {n: OTHERWISE.get(n, snake(n)) for n in own_names()}
    used = set()
    for path in files(".antt", ".rt"):
        used.update(TOKEN.findall(read(path)))
    if argv == ["--list"]:
        for old, new in sorted(table.items()):
            print(old, new, "(there already)" if new in used else "")
        return 0
    turned = lambda text: TOKEN.sub(lambda m: table.get(m.group(0), m.group(0)), text)
    pages = [os.path.join("docs", n) for n in sorted(os.listdir("docs")) if n.endswith(".md") and not n.startswith("PORT")]
    for path in [*files(".antt", ".rt", ".edit"), *pages, "README.md", "CONTRIBUTING.md"]:
        old = read(path)
        new = turned(old)
        if new != old:
            with open(path, "w", encoding="utf-8") as f:
                f.write(new)
    return 0


if __name__ == "__main__":
    raise SystemExit(main(sys.argv[1:]))
