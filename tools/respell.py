#!/usr/bin/env python3
"""Respells the repository's own definitions and lemmas in snake case, by the table beside this script (old, a tab, new).

Run it once, at the repository's top, right after the toolchain's own port script. It turns whole words in specs/ and
proofs/, and in the clauses, ghost members and ghost imports of src/; functions, strings and comments stay as they are.
"""
import os
import re

HERE = os.path.dirname(os.path.abspath(__file__))
WORD = re.compile(r'"(?:\\.|[^"\\])*"|--[^\n]*|//[^\n]*|[^\s(){}.;,@"«»\[\]&*!:]+')

with open(os.path.join(HERE, "respell.tsv"), encoding="utf-8") as f:
    ROWS = dict(line.rstrip("\n").split("\t") for line in f)


# The port script brings the list predicate by recursion in under the name of another word of the library: it gets its own.
ALIAS = "AllByRecursion as All"


def respelt(text):
    rows = ROWS
    if ALIAS in text:
        rows = dict(ROWS, All="AllByRecursion")
        text = text.replace(ALIAS, "AllByRecursion")
    return WORD.sub(lambda m: rows.get(m[0], m[0]), text)


for folder, dirs, names in os.walk("crates"):
    dirs[:] = sorted(d for d in dirs if d not in ("out", "must-fail"))
    for name in sorted(names):
        if not name.endswith((".antt", ".rt")):
            continue
        path = os.path.join(folder, name)
        with open(path, encoding="utf-8") as f:
            old = f.read()
        new = respelt(old)
        if new != old:
            with open(path, "w", encoding="utf-8") as f:
                f.write(new)
            print(path)
