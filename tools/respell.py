#!/usr/bin/env python3
"""Gives the definitions and lemmas of the crates the spelling of this Rattle.

usage: python3 tools/respell.py     at the top of a checkout, once, after the kit's port.py

tools/respell.tsv has a row for each name: old, a tab, new. In .antt files whole words turn, in code and in comments; in
.rt files those of clauses and of `ghost use` lines. A name of one file alone stands in ALONE. `rt fmt` then lays out
each crate.
"""

import os
import re
import subprocess
import sys

WORD = re.compile(r"[^\s(){}.;,@\"«»`]+")
CLAUSE = re.compile(r"(?:requires|ensures)\s*\w*\s*\{")
GHOST_USE = re.compile(r"ghost\s+use\b[^;]*;")
STRING = re.compile(r'"(?:[^"\\\n]|\\.)*"')
ALONE = {("suontarvi/specs/Matrices.antt", "numbered"): "Numbered"}


def turned(text, table):
    """The text with each whole word of the table turned; strings stay."""
    out, at = [], 0
    for string in STRING.finditer(text):
        out.append(WORD.sub(lambda m: table.get(m[0], m[0]), text[at : string.start()]))
        out.append(string[0])
        at = string.end()
    out.append(WORD.sub(lambda m: table.get(m[0], m[0]), text[at:]))
    return "".join(out)


def end_of_block(text, at):
    """The place after the brace that closes the one before `at`."""
    depth = 1
    while depth:
        depth += {"{": 1, "}": -1}.get(text[at], 0)
        at += 1
    return at


def turned_rt(text, table):
    """A .rt file: its clauses and `ghost use` lines turned."""
    parts, at = [], 0
    while True:
        found = [m for m in (CLAUSE.search(text, at), GHOST_USE.search(text, at)) if m]
        if not found:
            return "".join(parts) + text[at:]
        m = min(found, key=lambda m: m.start())
        end = m.end() if m[0].startswith("ghost") else end_of_block(text, m.end())
        parts += [text[at : m.start()], turned(text[m.start() : end], table)]
        at = end


def main():
    here = os.path.dirname(os.path.realpath(__file__))
    with open(os.path.join(here, "respell.tsv"), encoding="utf-8") as f:
        table = dict(line.rstrip("\n").split("\t") for line in f)
    for folder, dirs, files in os.walk("crates"):
        dirs[:] = sorted(d for d in dirs if d != "out")
        for name in sorted(files):
            path = os.path.join(folder, name)
            if not name.endswith((".rt", ".antt")):
                continue
            alone = {old: new for (end, old), new in ALONE.items() if path.endswith(end)}
            with open(path, encoding="utf-8") as f:
                text = f.read()
            new = (turned_rt if name.endswith(".rt") else turned)(text, table | alone)
            if new != text:
                with open(path, "w", encoding="utf-8") as f:
                    f.write(new)
    for crate in sorted(os.listdir("crates")):
        subprocess.run(["rt", "fmt"], cwd=os.path.join("crates", crate), stdout=subprocess.DEVNULL, check=True)
    return 0


if __name__ == "__main__":
    sys.exit(main())
