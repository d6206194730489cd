#!/usr/bin/env python3
"""Spells the definitions and lemmas of this repository as Rattle's library spells its own: words in snake case.

usage: python3 tools/respell.py        once, at the top of a checkout in which Rattle's own porting script has run

Each row of tools/spelling.tsv is an old name, a tab and the new one. Only whole names turn, in the .antt and .rt files
below crates/; names of Rust functions, fields and modules are in no row.
"""

import os
import re

HERE = os.path.dirname(os.path.realpath(__file__))
EDGE = r"[\s(){}.;,@\"«»:`\[\]]"


def rows():
    with open(os.path.join(HERE, "spelling.tsv"), encoding="utf-8") as f:
        return dict(line.rstrip("\n").split("\t") for line in f)


def main():
    table = rows()
    word = re.compile(rf"(?:(?<=^)|(?<={EDGE}))({'|'.join(re.escape(n) for n in sorted(table, key=len, reverse=True))})(?={EDGE}|$)", re.M)
    turned = 0
    for folder, dirs, files in os.walk("crates"):
        dirs[:] = sorted(d for d in dirs if d != "out")
        for name in sorted(files):
            if name.endswith((".antt", ".rt")):
                path = os.path.join(folder, name)
                with open(path, encoding="utf-8") as f:
                    old = f.read()
                new = word.sub(lambda m: table[m.group(1)], old)
                if new != old:
                    turned += 1
                    with open(path, "w", encoding="utf-8") as f:
                        f.write(new)
    print(f"{turned} files respelled")


main()
