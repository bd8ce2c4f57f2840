#!/usr/bin/env python3
"""Makes the matrices of docs/GALLERY.md and their pictures: `docs/gallery.py [FOLDER]`, after a release build of host/.
Without a folder for the matrices they are not kept. The pictures are by powers of two alone, so that they are the same
on every machine: status 1 with --check if one is not as docs/gallery/ has it."""
import argparse
import random
import subprocess
import sys
import tempfile
from pathlib import Path

HERE = Path(__file__).resolve().parent
TOOL = HERE.parent / "host" / "target" / "release" / "suontarvi"


def write(file, n, entries, kind="real general"):
    lines = [f"%%MatrixMarket matrix coordinate {kind}", f"{n} {n} {len(entries)}"]
    for (row, column), value in sorted(entries.items(), key=lambda entry: entry[0][::-1]):
        lines.append(f"{row + 1} {column + 1}" + ("" if value is None else f" {value:.6e}"))
    file.write_text("\n".join(lines) + "\n")


def size(decades=0.0):
    """A number of either sign, spread over this many powers of ten both ways."""
    value = (0.5 + random.random()) * 10 ** ((2 * random.random() - 1) * decades)
    return value if random.random() < 0.5 else -value


def spoilt(n, entries, decades):
    """Rows shuffled, rows and columns scaled by powers of ten."""
    order = list(range(n))
    random.shuffle(order)
    rows, columns = ([10 ** ((2 * random.random() - 1) * decades) for _ in range(n)] for _ in range(2))
    return {(order[row], column): value * rows[row] * columns[column] for (row, column), value in entries.items()}


def shuffled(file):
    n = 60
    entries = {(int(random.random() * n), column): size() / 4 for column in range(n) for _ in range(3)}
    entries.update({(k, k): size() for k in range(n)})
    write(file, n, spoilt(n, entries, 5))


def grid(file):
    side = 20
    n = side * side
    entries = {}
    for at in range(n):
        row, column = divmod(at, side)
        entries[at, at] = 4.0
        for other in [at - side, at + side] + [at - 1] * (column > 0) + [at + 1] * (column < side - 1):
            if 0 <= other < n:
                entries[at, other] = -1.0
    write(file, n, spoilt(n, entries, 3))


def saddle(file):
    """A block of masses, a block of constraints, and nothing below: half of the diagonal is not there."""
    masses, bonds = 60, 30
    entries = {(k, k): 10.0 ** (8 * random.random() - 4) for k in range(masses)}
    for bond in range(bonds):
        for mass in {2 * bond, int(random.random() * masses), int(random.random() * masses)}:
            entries[masses + bond, mass] = size(3)
    write(file, masses + bonds, entries, "real symmetric")


def singular(file):
    n = 40
    entries = {(k, k): size(2) for k in range(n) if k not in (12, 20, *range(30, 35))}
    for column in range(30, 35):
        entries.update({(row, column): size(2) for row in (3, 7, 9)})
    for row in range(30, 35):
        entries[row, 5] = size(2)
    write(file, n, entries)


def pattern(file):
    n = 128
    entries = {(int(random.random() * n), column): None for column in range(n) for _ in range(5)}
    order = list(range(n))
    random.shuffle(order)
    entries.update({(order[k], k): None for k in range(n)})
    write(file, n, entries, "pattern general")


def main():
    arguments = argparse.ArgumentParser()
    arguments.add_argument("folder", nargs="?", type=Path)
    arguments.add_argument("--check", action="store_true")
    given = arguments.parse_args()
    random.seed(43)
    differs = []
    with tempfile.TemporaryDirectory() as temporary:
        folder = given.folder or Path(temporary)
        folder.mkdir(parents=True, exist_ok=True)
        for make in (shuffled, grid, saddle, singular, pattern):
            file = folder / (make.__name__ + ".mtx")
            make(file)
            to = Path(temporary) if given.check else HERE / "gallery"
            picture = to / (make.__name__ + ".svg")
            subprocess.run([TOOL, "picture", file, picture, "--rule", "whole"], check=True, stdout=subprocess.DEVNULL)
            if picture.read_bytes() != (HERE / "gallery" / picture.name).read_bytes():
                differs.append(picture.name)
    said = f", others than docs/gallery has: {', '.join(differs)}" if differs else " are as docs/gallery has them"
    print("5 pictures" + said)
    sys.exit(1 if differs else 0)


main()
