#!/usr/bin/env python3
"""Turns the names of this repository's own definitions and lemmas to snake case, as today's Rattle spells names.

usage: python3 tools/respell.py [PLACE]     rewrites the .rt, .antt and .edit files below crates/, and the pages
       python3 tools/respell.py --list      prints the old and the new names, and those that would fall together

It was run once, in the commit after the one in which the toolchain's own script had run. A name is turned when it is declared
in a file of specs/ or proofs/: a definition, a lemma, a field, a constructor. Types and modules keep their capitals; names
from src/, exported C names, strings and files of input and output are never declared there, and keep theirs.
"""

import glob
import os
import re
import sys

DECLARED = re.compile(r"^ *(?:(?:pub|abbrev|unfoldable|data|record) )*([^\s:(){}]+) *(?:[({][^\n]*)?: ", re.M)
TOKEN = re.compile(r"[^\s(){}\[\],;.|`]+")
# A definition into Type 0 is a type.
TYPES = {"none-at": "NoneAt"}
# In a page a word is turned only where it stands as code.
CODE = re.compile(r"`[^`\n]*`")


def antt(place):
    return sorted(f for kind in ("specs", "proofs") for f in glob.glob(f"{place}/crates/*/{kind}/**/*.antt", recursive=True))


def snake(name):
    """`axisEntryOf` is `axis_entry_of`; a run of capitals and a type's symbol are words: `onXY` is `on_xy`, `minℤ` is `min_ℤ`."""
    if not re.match(r"[^A-Za-z]*[a-z]", name):
        return name
    name = re.sub(r"([a-z0-9])([A-Z]+)(?![a-z])", lambda m: m[1] + "_" + m[2].lower(), name)
    name = re.sub(r"([a-z0-9])([A-Z])", lambda m: m[1] + "_" + m[2].lower(), name)
    return re.sub(r"([a-z])ℤ", r"\1_ℤ", name)


def names(place):
    """The old and the new names, by the declarations in specs/ and proofs/."""
    table = dict(TYPES)
    for f in antt(place):
        text = open(f, encoding="utf-8").read()
        for m in DECLARED.finditer(text):
            new = snake(m[1])
            if new != m[1]:
                table[m[1]] = new
    return table


def turn(text, table):
    return TOKEN.sub(lambda m: table.get(m[0], m[0]), text)


def places(place):
    yield from antt(place)
    yield from sorted(glob.glob(f"{place}/crates/*/src/**/*.rt", recursive=True))
    yield from sorted(glob.glob(f"{place}/crates/*/must-fail/*.edit"))


def together(place, table):
    """New names that a file that uses the old one has already."""
    for f in places(place):
        tokens = set(TOKEN.findall(open(f, encoding="utf-8").read()))
        for old, new in table.items():
            if old in tokens and new in tokens:
                yield f, old, new


def main():
    listing = "--list" in sys.argv
    rest = [w for w in sys.argv[1:] if w != "--list"]
    place = rest[0] if rest else "."
    table = names(place)
    if listing:
        for old in sorted(table):
            print(old, table[old])
        for f, old, new in together(place, table):
            print("together:", f, old, new)
        return
    # The notes of the requests, in a folder of their own, have the names of their time.
    pages = sorted(glob.glob(f"{place}/docs/*.md")) + [f"{place}/README.md"]
    for f in list(places(place)) + pages:
        text = open(f, encoding="utf-8").read()
        new = CODE.sub(lambda m: turn(m[0], table), text) if f.endswith(".md") else turn(text, table)
        if new != text:
            open(f, "w", encoding="utf-8").write(new)


main()
