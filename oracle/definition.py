#!/usr/bin/env python3
"""The definition of the match (crates/hungarian) against the original, on small graphs.

    RSLAB=/path/to/rslab oracle/definition.py [--spoil] [COUNT] [SEED]

Asks the oracle for the match of COUNT (400) random graphs and of a few of the
dense rule's size, writes a crate in a temporary folder whose one proof file says
of each graph that the definition `hungarian_match` gives the oracle's answer, bit
for bit, and has it checked. Status 1 if an equation is refused. With --spoil one
bit of one answer is changed first: status 1 unless that equation is refused.
"""
import os
import random
import re
import shutil
import struct
import subprocess
import sys
import tempfile

HERE = os.path.dirname(os.path.abspath(__file__))
ROOT = os.path.dirname(HERE)
SIGN = 1 << 63

HEADER = """-- What the original answers on these graphs is what the definition computes.
use mathlib.Core.Path.{◌≡◌, refl}
use mathlib.Core.List.{List, [], ◌∷◌, map}
use Prim.Native.Nat.{ℕ}
use lib.Ieee.{binary64, of_bits, add, sub, lt, le, eq, ne}
use Rattle.limits.specs.Limits.{none}
use Rattle.hungarian.specs.Graph.{CostGraph, graph_of}
use Rattle.hungarian.specs.Counts.{counts}
use Rattle.hungarian.specs.Match.{Matching, hungarian_match}

abbrev graph : ℕ → List ℕ → List ℕ → List ℕ → CostGraph
graph n col_ptr rows costs = graph_of n col_ptr rows (map (of_bits binary64) costs)

-- the original has five of the seven counts: the other two are the definition's own
abbrev answer : Matching → List ℕ → List ℕ → List ℕ → ℕ → ℕ → ℕ → ℕ → ℕ → ℕ → Matching
answer own perm u v matched slots searches touched inner scans = record {
  perm = perm;
  u = map (of_bits binary64) u;
  v = map (of_bits binary64) v;
  matched = matched;
  stats = counts slots searches touched inner scans own.stats.popped_total own.stats.largest_heap;
}
"""

EQUATION = """
abbrev {name}_is : Matching
{name}_is = hungarian_match (graph {n} ({col_ptr}) ({rows}) ({cost}))

{name} : {name}_is ≡ answer {name}_is ({perm}) ({u}) ({v}) {matched} {counts}
unfolding hungarian_match of_bits add sub lt le eq ne
{name} = refl
"""

# A kind of graph: the costs, and which rows a column may have.
COSTS = {
    "whole": lambda r: float(r.randrange(100)),
    "few whole": lambda r: float(r.randrange(4)),
    "large whole": lambda r: float(r.randrange(2**45)),
    "fractional": lambda r: r.random() * 10,
    "large fractional": lambda r: r.random() * 2**45,
    "equal": lambda r: 2.5,
    "zero": lambda r: 0.0,
    "zeros of both signs": lambda r: r.choice([0.0, -0.0, 0.5]),
}


def rows_of(r, n, pattern):
    """The rows that may stand in a column."""
    if pattern == "empty rows":
        return [row for row in range(n) if row % 3 != 1]
    if pattern == "Hall violator" and r.random() < 0.7:
        return range(n // 3)
    return range(n)


def random_graph(r, number):
    """Columns of pairs (row, cost), n up to 8."""
    n = r.randrange(9)
    cost = list(COSTS.values())[number % len(COSTS)]
    pattern = r.choice(["any", "any", "empty columns", "empty rows", "Hall violator"])
    density = r.choice([0.2, 0.35, 0.5, 0.8, 1.0])
    columns = []
    for _ in range(n):
        empty = pattern == "empty columns" and r.random() < 0.3
        rows = [] if empty else rows_of(r, n, pattern)
        columns.append([(row, cost(r)) for row in rows if r.random() < density])
    return columns


def dense_graph(n, length):
    """Sample 12: whether the first column, of this length, may claim shows in perm."""
    first = [(1, 0.0), (2, 0.0)] + [(row, 9.0) for row in range(3, length + 1)]
    columns = [first, [(0, 0.0), (1, 0.0)], [(1, 7.0), (2, 7.0)]]
    return columns + [[(row, 0.0)] for row in range(3, n)]


def bits(x):
    return struct.unpack("<Q", struct.pack("<d", x))[0]


def by_columns(columns):
    """n, pointers, rows and bits of costs."""
    col_ptr = [0]
    for column in columns:
        col_ptr.append(col_ptr[-1] + len(column))
    ties = [tie for column in columns for tie in column]
    return len(columns), col_ptr, [row for row, _ in ties], [bits(cost) for _, cost in ties]


def ask(graphs):
    """The oracle's answers: a label's words, for each graph."""
    request = ""
    for n, col_ptr, rows, cost in map(by_columns, graphs):
        words = (" ".join(map(str, col_ptr)), " ".join(map(str, rows)), " ".join(f"{c:016x}" for c in cost))
        request += "match\nn %d\ncol_ptr %s\nrow_idx %s\ncost %s\nend\n" % (n, *words)
    command = ["cargo", "run", "--release", "--quiet", "--manifest-path", HERE + "/Cargo.toml"]
    done = subprocess.run(command, input=request, stdout=subprocess.PIPE, text=True, check=True)
    answers = []
    for text in done.stdout.split("end\n")[:-1]:
        lines = [line.split() for line in text.splitlines()]
        answers.append({line[0]: line[1:] for line in lines})
    return answers


def listed(words):
    return "".join(f"{word} ∷ " for word in words) + "[]"


def equation(name, graph, answer):
    n, col_ptr, rows, cost = by_columns(graph)
    return EQUATION.format(
        name=name,
        n=n,
        col_ptr=listed(col_ptr),
        rows=listed(rows),
        cost=listed(cost),
        perm=listed("none" if row == "-" else row for row in answer["perm"]),
        u=listed(int(word, 16) for word in answer["u"]),
        v=listed(int(word, 16) for word in answer["v"]),
        matched=answer["matched"][0],
        counts=" ".join(answer["counts"]),
    )


def lines_of_crates(names):
    """The lines of crates.txt of these crates and of those below them, by name."""
    with open(ROOT + "/crates.txt", encoding="utf-8") as file:
        lines = dict(re.findall(r"^(\w+)(?: staticlib)?:(.*)$", file.read(), re.M))
    found = {}
    while names:
        name = names.pop()
        if name in lines and name not in found:
            found[name] = f"{name}:{lines[name]}\n"
            names += lines[name].split()
    return found


def refused_by_checker(equations):
    """The names of the equations that the checker refuses, in a crate over a copy of the definition's crates."""
    files = {
        "src/lib.rt": "// Equations alone: proofs/Graphs.antt.\n",
        "proofs/Lib.antt": "-- Equations of the match.\npub mod Graphs\n",
        "proofs/Graphs.antt": HEADER + "".join(equations),
    }
    below = lines_of_crates(["limits", "hungarian"])
    with tempfile.TemporaryDirectory() as folder:
        for name in below:
            shutil.copytree(f"{ROOT}/crates/{name}", f"{folder}/crates/{name}")
        with open(folder + "/crates.txt", "w", encoding="utf-8") as file:
            file.write("".join(below.values()) + "graphs: limits hungarian\n")
        for name, text in files.items():
            path = f"{folder}/crates/graphs/{name}"
            os.makedirs(os.path.dirname(path), exist_ok=True)
            with open(path, "w", encoding="utf-8") as file:
                file.write(text)
        done = subprocess.run(["rt", "check"], cwd=folder + "/crates/graphs", capture_output=True, text=True)
    said = done.stdout + done.stderr
    refused = re.findall(r"error: `(graph_\d+)`", said)
    proved = done.returncode == 0 and "logic=proved" in said
    if proved == bool(refused):
        sys.exit(f"the checker ended with status {done.returncode} and said:\n{said}")
    return refused


def spoil(answers):
    """Turns the sign of the first u that there is; the name of its equation."""
    number = next(k for k, answer in enumerate(answers) if answer["u"])
    word = answers[number]["u"][0]
    answers[number]["u"][0] = f"{int(word, 16) ^ SIGN:016x}"
    return f"graph_{number}"


def main(words):
    spoiled = "--spoil" in words
    numbers = [int(word) for word in words if word != "--spoil"]
    count, seed = (numbers + [400, 1][len(numbers):])[:2]
    r = random.Random(seed)
    graphs = [random_graph(r, number) for number in range(count)]
    graphs += [dense_graph(50, 6), dense_graph(51, 5), dense_graph(51, 6)]
    answers = ask(graphs)
    expected = [spoil(answers)] if spoiled else []
    names = [f"graph_{number}" for number in range(len(graphs))]
    refused = refused_by_checker(map(equation, names, graphs, answers))
    for name in refused:
        print(f"{name} is refused: columns {graphs[names.index(name)]}")
    searched = sum(answer["counts"][1] != "0" for answer in answers)
    partial = sum("-" in answer["perm"] for answer in answers)
    print(f"{len(graphs)} graphs, {searched} with a search, {partial} without a complete matching")
    print(f"{len(graphs) - len(refused)} agree, {len(refused)} refused{', one of them spoiled' if spoiled else ''}")
    sys.exit(0 if refused == expected else 1)


main(sys.argv[1:])
