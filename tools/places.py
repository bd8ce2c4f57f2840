#!/usr/bin/env python3
"""Counts the places that docs/DESIGN-PASS.md speaks of, in crates/*/src and crates/*/proofs: `tools/places.py [--list]
[FOLDER]`. FOLDER is the top of a checkout, this one if none is named; --list names each place.

A place is found by the form of its text alone. Whether it is one that another form would serve is for a reader."""
import re
import sys
from collections import defaultdict
from itertools import combinations
from pathlib import Path

FUNCTION = re.compile(r"\bfn (\w+)(?:<[^>]*>)?\(([^{]*?)\)(?: -> ([^{\n]*))?\n?(.*?)\n?(\s*)\{\n(.*?)\n\5\}\n", re.S)
GROUPS = {
    "a matrix (col_ptr, row_idx, values)": {"col_ptr", "row_idx", "values"},
    "a graph (col_ptr, row_idx, cost)": {"col_ptr", "row_idx", "cost"},
    "a pattern (col_ptr, row_idx) alone": {"col_ptr", "row_idx"},
    "a match (perm, u, v)": {"perm", "u", "v"},
    "triplets (rows, cols, vals)": {"rows", "cols", "vals"},
    "a built graph (graph_ptr, graph_rows, cost, cmax)": {"graph_ptr", "graph_rows", "cost", "cmax"},
    "a heap's slices (work, pos, keys)": {"work", "pos", "keys"},
    "a text and the place in it (out, at)": {"out", "at"},
}


class Function:
    def __init__(self, path, match):
        self.name, parameters, self.answer, self.contract, _, self.body = match.groups()
        self.path = path
        self.parameters = re.findall(r"(\w+):", parameters)
        self.kinds = dict(re.findall(r"(\w+): ([^,]+)", parameters))
        self.answer = (self.answer or "").strip()

    def __str__(self):
        return f"{self.path}: {self.name}"

    def shape(self):
        """the tokens of the body, names by the order in which they come"""
        seen = {}
        words = re.findall(r"\w+|[^\w\s]", re.sub(r"//.*", "", self.body))
        return [str(seen.setdefault(w, len(seen))) if re.match(r"[A-Za-z_]", w) else w for w in words]


def functions(top):
    for path in sorted(top.glob("crates/*/src/**/*.rt")):
        text = path.read_text()
        for match in FUNCTION.finditer(text):
            yield Function(path.relative_to(top / "crates"), match)


def lines(top, pattern):
    for path in sorted(top.glob("crates/*/src/**/*.rt")):
        for number, line in enumerate(path.read_text().splitlines(), 1):
            if re.search(pattern, line):
                yield f"{path.relative_to(top / 'crates')}:{number}: {line.strip()}"


def twins(all_of):
    """pairs of one crate or of two whose bodies are the same but for the names, of 16 tokens or more"""
    by_shape = defaultdict(list)
    for f in all_of:
        shape = f.shape()
        if len(shape) >= 16:
            by_shape[" ".join(shape)].append(f)
    for group in by_shape.values():
        for a, b in combinations(group, 2):
            yield f"{a} and {b}"


def places(top):
    every = list(functions(top))
    yield "1. enums", list(lines(top, r"^(pub )?enum "))
    yield "1. functions that answer a refusal as a number", [
        f for f in every if f.answer == "u32" and ("refusal::" in f.body or "fault" in f.name)
    ]
    yield "1. sentinels: NONE, NO_ENTRY, RINF, FREE", list(lines(top, r"[=!]= (NONE|NO_ENTRY|RINF|FREE)\b"))
    yield "2. functions that differ in names alone", list(twins(every))
    yield "3. while and loop", list(lines(top, r"^ *(while|loop)\b"))
    yield "3. a counter stepped by hand", list(lines(top, r"^ *\w+ (\+|-)= 1;$"))
    yield "3. for over the indices of one slice", list(lines(top, r"for \w+ in 0\.\.\w+\.len\(\)"))
    yield "4. fields copied one by one", list(lines(top, r"^ *(\w+): \w+\.\1,$"))
    yield "4. a name for each number", list(lines(top, r"if (choice|number|call|rule) == \d"))
    for name, group in GROUPS.items():
        held = [f for f in every if group <= set(f.parameters)]
        if name.endswith("alone"):
            held = [f for f in held if not {"values", "cost"} & set(f.parameters)]
        yield f"5. {name}", held
    yield "5. functions of more than six parameters", [f for f in every if len(f.parameters) > 6]
    yield "6. a slice and how much of it counts", [
        f for f in every if f.kinds.get("n", f.kinds.get("count")) == "usize" and "&" in "".join(f.kinds.values())
    ]
    yield "7. a parameter that says which way to go", [
        f for f in every if any(k in ("bool", "LogSource", "Rule", "Form") for k in f.kinds.values())
    ]
    proofs = [p for p in top.glob("crates/*/proofs/**/*.antt") if "out" not in p.parts]
    yield "8. functions with a proof of their own by places", [p for p in proofs if p.name == "Proof.antt"]
    yield "8. functions with answers", [p for p in proofs if p.name == "Answers.antt"]


def main(words):
    listed = "--list" in words
    folders = [w for w in words if w != "--list"]
    top = Path(folders[0] if folders else Path(__file__).resolve().parent.parent)
    for name, found in places(top):
        print(f"{len(found):5}  {name}")
        if listed:
            for place in found:
                print(f"         {place}")
    return 0


if __name__ == "__main__":
    sys.exit(main(sys.argv[1:]))
