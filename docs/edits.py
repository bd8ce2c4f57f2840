#!/usr/bin/env python3
"""The table of must-fail edits in docs/MUST_FAIL.md, from the edits alone. `rt` keeps no log of what the prover said of
an edit: that it refuses each, `bash .ci/run` and `tests/edits.sh` find. Edits that only the latter tries have a star.

  docs/edits.py            prints the rows
  docs/edits.py --write    puts them into docs/MUST_FAIL.md, below the line that names this script, if the status is 0
  docs/edits.py --check    compares them with those of docs/MUST_FAIL.md

The comment of an edit says what the contract says and the edit breaks. A line `false: PLACE, FACT` names a fact that is
false under the edit; an edit without one has an empty column. PLACE is a file of the crate's proofs, and FACT a law in
it; or PLACE is a function, as its folder in proofs, and FACT a goal of its proof (`returns`, `loop-k-init`).
The status is 1 if an edit has no comment, if its line `false:` is not of this form, if the place that it names has no
such fact, or if neither proofs nor src have the place. A goal that the check finds alone stands in no file: its name
then has to be made of the check's own words and of names in the code of the function, the edit's lines included.
"""
import re
import sys
from pathlib import Path

ROOT = Path(__file__).resolve().parent.parent
MARK = "<!-- rows by docs/edits.py -->\n"
HEAD = """
| edit | of | what the contract says, and the edit breaks | a fact that is false under it |
|---|---|---|---|
"""
# the forms of a goal's name; what stands for a name in them has to be one of the code, or a word of WORDS
GOAL = re.compile(
    r"returns(-.+)?|loop-(?!loop-).+-(init|preserved|smaller)(-.+)?|.+-requires(-.+)?"
    r"|(slice_)?bounds-.+|overflow_[a-z]+-.+")
PARTS = re.compile(
    r"returns|loop|init|preserved|smaller|requires|bounds|slice_bounds|start|end|overflow_(add|sub|mul|neg|step|cast)")
WORDS = re.compile(r"then|else|in|not|clause|in_err|in_ok|(eq|ne|lt|le|gt|ge)\d*")
NO_NAMES = set(
    "as bool const else f64 false fn for i32 i64 if in let loop match mut pub ref return true u16 u32 u64 u8 usize use"
    " while".split())
faults = []


def stands(crate, place, fact, edit):
    """whether the fact is in that place: in a file of proofs, or by its name a goal of the function"""
    proofs = ROOT / "crates" / crate / "proofs"
    files = [proofs / f"{place}.antt", *(proofs / place).glob("*.antt")]
    texts = [path.read_text() for path in files if path.is_file()]
    if any(re.search(rf"^ *(?:pub )?{re.escape(fact)}(?: |$)", text, re.M) for text in texts):
        return True
    codes = [path.read_text() for path in (ROOT / "crates" / crate / "src").rglob("*.rt")]
    function = re.compile(rf"^( *)(?:pub(?:\(\w+\))? )?fn {re.escape(place.split('/')[-1])}\b.*?^\1\}}$", re.S | re.M)
    bodies = "".join(found[0] for code in codes for found in function.finditer(code))
    lines = "".join(re.findall(r"^new: (.*)$", edit, re.M))
    return bool(bodies) and is_goal(fact, set(re.findall(r"\w+", bodies + lines)) - NO_NAMES)


def is_goal(fact, names):
    """whether the name is one that the check gives a goal of a function with these names in its code"""
    words = fact.split("-")
    return bool(GOAL.fullmatch(fact)) and all(PARTS.fullmatch(w) or WORDS.fullmatch(w) or w in names for w in words)


def false_fact(crate, label, text):
    """the fact that the edit names, or nothing"""
    named = re.search(r"^false: (\S+), (\S+)$", text, re.M)
    if not named:
        if re.search(r"^false", text, re.M):
            faults.append(f"{crate}/{label}: its line `false:` is not `false: PLACE, FACT`")
        return ""
    if not stands(crate, *named.groups(), text):
        faults.append(f"{crate}/{label}: {named[1]} has no {named[2]}")
    return f"{named[1]}, `{named[2]}`"


def rows():
    gate = [(path.parent.parent.name, path, "") for path in ROOT.glob("crates/*/must-fail/*.edit")]
    apart = [(path.parent.name, path, " \\*") for path in ROOT.glob("tests/edits/*/*.edit")]
    for crate, path, star in sorted(gate + apart, key=lambda one: (one[0], one[1].stem)):
        text = path.read_text()
        said = re.search(r"^# *(.*)$", text, re.M)
        if not said:
            faults.append(f"{crate}/{path.stem}: it has no comment")
        files = re.findall(r"^file: (\S+)", text, re.M)
        kind = " and ".join(sorted({"code" if f.startswith("src/") else "definition" for f in files}))
        fact = false_fact(crate, path.stem, text)
        yield f"| {crate}/`{path.stem}`{star} | {kind} | {said[1] if said else ''} | {fact} |\n"


def main():
    table = "".join(rows())
    page = ROOT / "docs/MUST_FAIL.md"
    head, mark, old = page.read_text().partition(MARK)
    if not mark:
        faults.append("docs/MUST_FAIL.md has no line for the rows")
    elif "--write" in sys.argv:
        if not faults:
            page.write_text(head + mark + HEAD + table)
    elif "--check" in sys.argv:
        if old != HEAD + table:
            faults.append("docs/MUST_FAIL.md has other rows")
    else:
        print(table, end="")
    if faults:
        sys.exit("\n".join(faults))


main()
