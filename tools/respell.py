#!/usr/bin/env python3
"""Spells this repository's own definitions and lemmas as the library spells its own: words in snake case, types in camel case.

usage: python3 tools/respell.py        at the top of the checkout

respell.tsv, beside this script, has a row for each name: the old spelling, a tab, the new one, and 'field' behind a second
tab where it is a record's field, which also stands behind a dot. Whole names of .antt files and of .rt files turn. Names that
the check makes, which stand behind a dot, stay, and so do file names and the functions of src/. A second run changes nothing.
"""

import os
import re

HERE = os.path.dirname(os.path.realpath(__file__))
NAME = re.compile(r'(?<![^\s(){}.;,@"«»`\[\]])[^\s(){}.;,@"«»`\[\]]+')


def rows():
    names, fields = {}, set()
    with open(os.path.join(HERE, "respell.tsv"), encoding="utf-8") as f:
        for row in f:
            old, new, *kind = row.rstrip("\n").split("\t")
            names[old] = new
            if kind:
                fields.add(old)
    return names, fields


def respelled(text, names, fields):
    def turned(m):
        old = m.group()
        if old not in names or (text[m.start() - 1 : m.start()] == "." and old not in fields):
            return old
        return names[old]

    return NAME.sub(turned, text)


def main():
    names, fields = rows()
    for folder, folders, files in os.walk("crates"):
        folders[:] = sorted(d for d in folders if d != "out")
        for name in sorted(files):
            path = os.path.join(folder, name)
            if not name.endswith((".antt", ".rt")):
                continue
            with open(path, encoding="utf-8") as f:
                text = f.read()
            new = respelled(text, names, fields)
            if new != text:
                with open(path, "w", encoding="utf-8") as f:
                    f.write(new)


if __name__ == "__main__":
    main()
