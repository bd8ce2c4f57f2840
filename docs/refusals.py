#!/usr/bin/env python3
"""The refusals have one source, crates/refusal/specs/Refusal.antt: each number, its name and when it is answered.

  docs/refusals.py            prints the table
  docs/refusals.py --write    puts it into SPECIFICATION 3.4 and USING, below the line that names this script
  docs/refusals.py --check    holds every other table to it: the numbers and names of crates/refusal/src, the header,
                              the Rust host and the Python package, and both pages; status 1 if one differs
"""
import re
import sys
from pathlib import Path

ROOT = Path(__file__).resolve().parent.parent
PAGES = ["docs/SPECIFICATION.md", "docs/USING.md"]
MARK = "<!-- rows by docs/refusals.py -->\n"
PRINTED = range(20, 27)  # by the programs; no call answers them


def text(name):
    return (ROOT / name).read_text()


def upper(name):
    """SLICE_LENGTH of slice_length, SliceLength or itself"""
    return re.sub(r"(?<=[a-z])(?=[A-Z])", "_", name).upper()


def source():
    """number: (NAME, when) of every refusal"""
    one = r"((?:^-- .*\n)+)abbrev pub (\w+) : ℕ\n\2 = (\d+)\n"
    found = re.findall(one, text("crates/refusal/specs/Refusal.antt"), re.M)
    rows = {}
    for comment, name, number in found:
        when = " ".join(line[3:] for line in comment.splitlines())
        rows[int(number)] = (upper(name), when)
    return rows


def table(rows):
    head = "\n| number | when |\n|---|---|\n| 0 | accepted |\n"
    return head + "".join(f"| {number} | {when} |\n" for number, (_, when) in sorted(rows.items()))


def pairs(name, pattern):
    """(number, NAME) of each line of a file that the pattern finds, as its groups `number` and `name`"""
    return {int(m["number"]): upper(m["name"]) for m in re.finditer(pattern, text(name), re.M)}


def differences(rows):
    names = {number: name for number, (name, _) in rows.items()}
    calls = {number: name for number, name in names.items() if number not in PRINTED}
    tables = [
        ("crates/refusal/src/lib.rt", r"^    (?P<name>[A-Z]\w+) = (?P<number>\d+),", names),
        ("include/suontarvi.h", r"^#define SUONTARVI_REFUSED_(?P<name>\w+) (?P<number>\d+)", calls),
        ("host/src/refusal.rs", r'^    (?P<number>\d+) \w+ "(?P<name>\w+)"', calls),
        ("python/suontarvi/_refused.py", r'^    (?P<number>\d+): \("(?P<name>\w+)"', calls),
    ]
    for name, pattern, wanted in tables:
        have = pairs(name, pattern)
        for number in sorted(set(have) | set(wanted)):
            if have.get(number) != wanted.get(number):
                yield f"{name}: {number} is {have.get(number)}, the source has {wanted.get(number)}"
    for page in PAGES:
        if MARK + table(rows) not in text(page):
            yield f"{page}: the table is not the source's (docs/refusals.py --write)"


def write(rows):
    for name in PAGES:
        page = text(name)
        at = page.index(MARK) + len(MARK)
        end = re.compile(r"\n\n(?!\|)").search(page, at + 1).start() + 1
        (ROOT / name).write_text(page[:at] + table(rows) + page[end:])


def main(words):
    rows = source()
    if words == ["--check"]:
        told = list(differences(rows))
        print("\n".join(told) or f"{len(rows)} refusals, alike in every table")
        return 1 if told else 0
    if words == ["--write"]:
        write(rows)
    else:
        sys.stdout.write(table(rows))
    return 0


if __name__ == "__main__":
    sys.exit(main(sys.argv[1:]))
