#!/usr/bin/env python3
"""Brings the names of this repository's definitions and lemmas to today's spelling: words in snake case, types in camel case.

usage: python3 tools/respell.py, once, at the top, after the kit's port.py

respell.tsv beside this file has a row for each name: old, a tab, new. What turns: in .antt files the code, in .rt files the code
outside strings, in .edit files everything, in pages code spans. In a comment only names that no prose has: those with a capital.
"""

import os
import re

HERE = os.path.dirname(os.path.realpath(__file__))
WORD = r"[^\s(){}.;,@\"«»|`]+"


def table():
    with open(os.path.join(HERE, "respell.tsv"), encoding="utf-8") as f:
        return dict(line.rstrip("\n").split("\t") for line in f if line.strip())


NAMES = table()


def code(text):
    return re.sub(WORD, lambda m: NAMES.get(m[0], m[0]), text)


def comment(text):
    return re.sub(r"[\w'-]+", lambda m: NAMES.get(m[0], m[0]) if re.search("[A-Z]", m[0]) else m[0], text)


def parts(text, quiet, inside):
    out, at = [], 0
    for m in re.finditer(quiet, text, re.S | re.M):
        out += [code(text[at : m.start()]), inside(m[0])]
        at = m.end()
    return "".join(out) + code(text[at:])


def turned(path, text):
    if path.endswith(".antt"):
        return parts(text, r"(?<!\S)--[^\n]*", comment)
    if path.endswith(".rt"):
        return parts(text, r'//[^\n]*|"(?:[^"\\]|\\.)*"', lambda t: comment(t) if t.startswith("//") else t)
    if path.endswith(".edit"):
        return code(text)
    return re.sub(r"`[^`\n]+`", lambda m: "`" + code(m[0][1:-1]) + "`", text)


def files():
    for top in ("crates", "docs"):
        for folder, dirs, names in os.walk(top):
            dirs[:] = sorted(d for d in dirs if d != "out")
            for n in sorted(names):
                if n.endswith((".antt", ".rt", ".edit", ".md")):
                    yield os.path.join(folder, n)
    yield "README.md"


for p in files():
    with open(p, encoding="utf-8") as f:
        old = f.read()
    new = turned(p, old)
    if new != old:
        with open(p, "w", encoding="utf-8") as f:
            f.write(new)
