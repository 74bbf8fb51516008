#!/usr/bin/env python3
"""Spells the repository's own definitions and lemmas in snake case.

usage: python3 tools/snake_case.py [FOLDER]     FOLDER: the repository's top; else the current folder

The pairs of names stand in snake_names.txt beside this script: 'old new', one a line. A name is changed wherever it
stands as a whole token, in specs/, proofs/, the clauses of src/ and the must-fail edits; strings stay.
"""
import os, re, sys

here = os.path.dirname(os.path.realpath(__file__))
with open(os.path.join(here, "snake_names.txt"), encoding="utf-8") as f:
    NAMES = dict(line.split() for line in f if line.strip())
TOKEN = re.compile(r'"(?:\\.|[^"\\\n])*"|[^\s(){}\[\],;.«»:=|"]+')


def respelled(text):
    return TOKEN.sub(lambda m: NAMES.get(m.group(), m.group()), text)


top = sys.argv[1] if len(sys.argv) > 1 else "."
changed = 0
for folder, inner, names in os.walk(os.path.join(top, "crates")):
    inner[:] = [d for d in inner if d != "out"]
    for name in names:
        if name.endswith((".rt", ".antt", ".edit")):
            path = os.path.join(folder, name)
            with open(path, encoding="utf-8") as f:
                old = f.read()
            new = respelled(old)
            if new != old:
                with open(path, "w", encoding="utf-8") as f:
                    f.write(new)
                changed += 1
print(f"{changed} files changed")
