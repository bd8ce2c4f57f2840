#!/usr/bin/env python3
"""The theorems by crate: those of files Theorems, and the laws that README.md or a page of docs/ names.

  docs/theorems.py > docs/THEOREMS.md    writes the list: a line each, with the file and what its comment or type says
  docs/theorems.py --check               exits with 1 if that file is not what the proofs give
  docs/theorems.py --all                 prints every public law under crates/NAME/proofs with its statement

A law is a `pub` name with a type that is neither a field nor an abbreviation."""
import re
import sys
from itertools import takewhile
from pathlib import Path

HERE = Path(__file__).resolve().parent.parent
INDEX = HERE / "docs" / "THEOREMS.md"
LAW = re.compile(r"^( *)pub (?!mod |record |data |use )(\S+) : (.*)$")
WIDTH = 95

HEAD = """# Theorems

Made by `docs/theorems.py`; `docs/theorems.py --check` compares. By crate: the laws of files `Theorems.antt` and those
that the documents name, each with its file in `crates/NAME/proofs` and what it says: the comment above it, or else
its statement, cut where it is long. `docs/theorems.py --all` prints every public law. A law of a section has the
section's parameters as well, which are not shown.
"""


def crates():
    """The names of the crates, in the order of crates.txt."""
    lines = (HERE / "crates.txt").read_text().splitlines()
    return [line.split(":")[0].split()[0] for line in lines if line and not line.startswith("#")]


def named():
    """The names of several words that the docs and README have, but for TRUSTED.md, which names definitions alone, and
    PORT.md, DESIGN-PASS.md and LOOK-BACK.md, records."""
    made = [INDEX, *(HERE / "docs" / f"{page}.md" for page in ["TRUSTED", "PORT", "DESIGN-PASS", "LOOK-BACK"])]
    pages = [HERE / "README.md", *(page for page in (HERE / "docs").glob("*.md") if page not in made)]
    return {name for page in pages for name in re.findall(r"`([^`\s]+[_-][^`\s]+)`", page.read_text())}


def said(lines, place):
    """What the comment above a line says, or nothing; a heading of several laws is none."""
    comment = []
    while place > 0 and lines[place - 1].lstrip().startswith("-- "):
        place -= 1
        comment.insert(0, lines[place].strip().removeprefix("-- "))
    text = " ".join(comment)
    return "" if place == 0 or text.startswith("--") else text


def laws(file):
    """Name, statement and comment of each law; a statement goes on in lines that are indented further."""
    lines = file.read_text().splitlines()
    fields = False
    for place, line in enumerate(lines):
        if line and not line.startswith((" ", "--")):
            fields = "record" in line.split()[:2]
        if (law := LAW.match(line)) and not fields:
            statement = [law[3]]
            for more in lines[place + 1:]:
                if not more.startswith(law[1] + " "):
                    break
                statement.append(more.strip())
            yield law[2], " ".join(statement), said(lines, place)


def found():
    """Crate, file, name, statement and comment of every law, by crate and file."""
    for crate in crates():
        for file in sorted((HERE / "crates" / crate / "proofs").glob("*.antt")):
            for law in laws(file):
                yield crate, file, *law


def cut(text, width):
    return text if len(text) <= width else text[:width - 3].rstrip() + " .."


def headline(file):
    """The comment that a file begins with, in one line."""
    lines = takewhile(lambda line: line.startswith("-- "), file.read_text().splitlines())
    return " ".join(line.removeprefix("-- ") for line in lines)


def listed():
    """The list that is kept: a line for each law that a reader looks for."""
    yield HEAD
    cited, last = named(), None
    for crate, file, name, statement, comment in found():
        if name not in cited and file.stem != "Theorems":
            continue
        if crate != last:
            yield f"\n## {crate}\n"
        last = crate
        start = f"- `{name}` ({file.stem}): "
        room = min(WIDTH, 118 - len(start))
        yield start + (cut(comment, room) if comment else f"`{cut(statement, room)}`")
    yield ""


def everything():
    last_crate = last_file = None
    for crate, file, name, statement, _ in found():
        if crate != last_crate:
            yield f"\n## {crate}"
        if file != last_file:
            yield f"\n{file.name}: {headline(file)}\n"
        last_crate, last_file = crate, file
        yield f"- `{name} : {cut(statement, 2 * WIDTH)}`"
    yield ""


def main():
    text = "\n".join(listed())
    if sys.argv[1:] == ["--check"]:
        if not INDEX.exists() or INDEX.read_text() != text:
            sys.exit("docs/THEOREMS.md is not what the proofs give: docs/theorems.py > docs/THEOREMS.md")
    elif sys.argv[1:] == ["--all"]:
        print("\n".join(everything()))
    elif sys.argv[1:]:
        sys.exit(__doc__)
    else:
        sys.stdout.write(text)


main()
