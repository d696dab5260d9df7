#!/usr/bin/env python3
"""Writes the repository's own definitions and lemmas in snake case, as the library spells its words.

usage: tools/respell.py    at the top, once, after the sources were turned

A definition, a lemma or a field of specs/ and proofs/ that was spelled as `rowSize` or `leAt-same` becomes `row_size`, `le_at-same`: in .antt
files, in the clauses of .rt files, in must-fail edits, and in the pages, between backticks. Types, modules, constructors, functions of src/,
exported names and strings stay. It stops where two names would fall together.
"""

import glob
import re
import sys

PART = re.compile(r"[A-Za-z0-9]+")
CAMEL = re.compile(r"[a-z]+[a-z0-9]*[A-Z][A-Za-z0-9]*")
HEX = re.compile(r"r[0-9][A-F]")
STRING = re.compile(r'b?"(?:[^"\\\n]|\\.)*"')
ODD = {"nameOr5": "name_or_5"}


def read(path):
    with open(path, encoding="utf-8") as f:
        return f.read()


def write(path, text):
    with open(path, "w", encoding="utf-8") as f:
        f.write(text)


def under(pattern):
    return sorted(p for p in glob.glob(pattern, recursive=True) if "/out/" not in p)


def snake(name):
    return ODD.get(name) or re.sub(r"([a-z0-9])([A-Z])", r"\1_\2", name).lower()


def own_names(paths):
    found = set()
    for path in paths:
        for line in read(path).splitlines():
            code = re.sub(r"--.*", "", line)
            found |= {w for w in PART.findall(code) if CAMEL.fullmatch(w) and not HEX.fullmatch(w)}
    return found


def main():
    antt = under("crates/*/specs/**/*.antt") + under("crates/*/proofs/**/*.antt")
    table = {}
    for name in sorted(own_names(antt)):
        if snake(name) in table.values():
            sys.exit(f"respell: two names would be {snake(name)}")
        table[name] = snake(name)

    def turn(text):
        return PART.sub(lambda m: table.get(m[0], m[0]), text)

    def outside_strings(text):
        parts, at = [], 0
        for s in STRING.finditer(text):
            parts += [turn(text[at : s.start()]), s[0]]
            at = s.end()
        return "".join(parts) + turn(text[at:])

    def in_backticks(text):
        return re.sub(r"`[^`\n]+`", lambda m: turn(m[0]), text)

    turned = [(p, turn) for p in antt]
    turned += [(p, outside_strings) for p in under("crates/*/src/**/*.rt") + under("crates/*/must-fail/*.edit")]
    turned += [(p, in_backticks) for p in ["README.md"] + under("docs/**/*.md") if not p.endswith("/PORT.md")]
    changed = 0
    for path, how in turned:
        old = read(path)
        new = how(old)
        if new != old:
            write(path, new)
            changed += 1
    print(f"respell: {len(table)} names, {changed} files")


main()
