#!/usr/bin/env python3
"""Brings the repository's own names in specs/, proofs/ and clauses to snake case, and its facts to camel case.

usage: python3 tools/names.py      at the top of the repository, once, after port.py of the Rattle kit

A name is the repository's own if a file of it declares it, or if an import names it by `as`. Names that Rattle makes for goals and
steps, and names of the kit's library, stay as they are.
"""

import os
import re
import sys

WORD = re.compile(r"[A-Za-z_][A-Za-z0-9_']*(?:-[A-Za-z0-9_']+)+")
USE = re.compile(r"(?:^|\n)\s*(?:ghost\s+)?(?:pub\s+)?use\s+([A-Za-z0-9_.']+)\.\{([^}]*)\}")
ALIAS = re.compile(r"\bas\s+([A-Za-z][A-Za-z0-9_'-]*)")
DECLARED = re.compile(
    r"(?:^|\n)[ ]*(?:abbrev |unfoldable |pub |data |record )*([A-Za-z][A-Za-z0-9_']*(?:-[A-Za-z0-9_']+)+)[ ]*"
    r"(?:\([^\n]*\)|\{[^\n]*\})?[^\n:=]*:(?!=)([^\n]*)"
)
# lemmas on a fact, which keep the dash after it
LEMMAS = re.compile(r"(All|Decides|When|IsTrue)-")


def files(root):
    for folder, dirs, names in os.walk(os.path.join(root, "crates")):
        dirs[:] = sorted(d for d in dirs if d not in ("out", "must-fail"))
        for name in sorted(names):
            if name.endswith((".antt", ".rt")):
                yield os.path.join(folder, name)


def today(name):
    parts = name.split("-")
    if name[0].isupper():
        return "".join(p[0].upper() + p[1:] for p in parts)
    return "_".join(parts)


def own_names(root, texts):
    crates = set(os.listdir(os.path.join(root, "crates")))
    own, others = set(), set()
    for path, text in texts.items():
        for m in USE.finditer(text):
            parts = m[1].split(".")
            if not (len(parts) > 1 and parts[0] == "Rattle" and parts[1] in crates):
                others.update(item.split(" as ")[0].strip() for item in m[2].split(","))
        own.update(a for a in ALIAS.findall(text) if "-" in a)
        if path.endswith(".antt"):
            own.update(m[1] for m in DECLARED.finditer(text) if "goal." not in m[2])
    return {n for n in own - others if not LEMMAS.match(n)}


def main():
    root = "."
    texts = {}
    for path in files(root):
        with open(path, encoding="utf-8") as f:
            texts[path] = f.read()
    names = own_names(root, texts)
    taken = set()
    for text in texts.values():
        taken.update(re.findall(r"[A-Za-z_][A-Za-z0-9_']*", text))
    for name in sorted(names):
        if today(name) in taken:
            print(f"look: {name} becomes {today(name)}, which stands already")
    back = {}
    for name in sorted(names):
        if today(name) in back:
            sys.exit(f"{name} and {back[today(name)]} fall together")
        back[today(name)] = name
    changed = 0
    for path, text in texts.items():
        new = WORD.sub(lambda m: today(m[0]) if m[0] in names else m[0], text)
        if new != text:
            with open(path, "w", encoding="utf-8") as f:
                f.write(new)
            changed += 1
    print(f"{len(names)} names, {changed} files")


main()
