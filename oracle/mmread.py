#!/usr/bin/env python3
"""What `pairs` prints of COUNT files (200) of all three kinds, read by scipy's mmread: a matrix of N by N whose entries
are the pairs that `ties` has of the same file. `oracle/mmread.py [COUNT] [SEED]` needs scipy (Debian: python3-scipy) and
both programs in target/bin. Exits with 1 if anything differs, with 2 if something is missing."""
import io
import random
import subprocess
import sys
from pathlib import Path

BINARIES = Path(__file__).resolve().parent.parent / "target" / "bin"
KINDS = ["integer general", "integer symmetric", "pattern general"]


def missing():
    """What is not there, in a sentence."""
    for name in ["ties", "pairs"]:
        if not (BINARIES / name).is_file():
            return f"target/bin/{name} is not there: run `tools/build.sh {name}`"
    try:
        import scipy.io  # noqa: F401
    except ImportError:
        return f"scipy is not there for {sys.executable}: Debian's package is python3-scipy"
    return None


def file_of(kind, rand):
    """A file of so many entries, at most as many as there are places and lines."""
    n = rand.choice([0, 1, 2, 3, 5, 8, 20, 64])
    places = [(i, j) for i in range(1, n + 1) for j in range(1, n + 1) if kind != KINDS[1] or i >= j]
    share = rand.choice([0.0, 0.1, 0.3, 1.0])
    chosen = rand.sample(places, min(512, int(share * len(places))))
    last = 4398046511103 if kind == KINDS[0] else 9007199254740991
    lines = [f"%%MatrixMarket matrix coordinate {kind}", f"{n} {n} {len(chosen)}"]
    for i, j in chosen:
        value = rand.choice([rand.randrange(4), rand.randrange(1000), rand.randint(0, last)])
        sign = rand.choice(["", "-"]) if kind == KINDS[1] else ""
        lines.append(f"{i} {j}" + ("" if kind == KINDS[2] else f" {sign}{value}"))
    return "".join(line + "\n" for line in lines).encode()


def printed(name, file):
    return subprocess.run([BINARIES / name], input=file, stdout=subprocess.PIPE, check=True).stdout


def pairs_of_report(report):
    """N and the pairs (row, column), from 0, that `ties` prints."""
    lines = [line.split() for line in report.decode().splitlines()]
    n = int(lines[0][3])
    return n, {(int(row) - 1, int(column) - 1) for column, row, _, _ in lines[1:n + 1] if row != "0"}


def pairs_of_matrix(text):
    """The same as scipy reads them; a pattern's entries are 1."""
    from scipy.io import mmread
    matrix = mmread(io.BytesIO(text)).tocoo()
    assert matrix.shape[0] == matrix.shape[1] and all(matrix.data == 1), matrix
    pairs = set(zip(matrix.row.tolist(), matrix.col.tolist()))
    assert len(pairs) == matrix.nnz, "an entry stands twice"
    return matrix.shape[0], pairs


def main():
    lacking = missing()
    if lacking:
        print(lacking, file=sys.stderr)
        return 2
    count, seed = [int(word) for word in sys.argv[1:] + ["200", "1"][len(sys.argv) - 1:]]
    rand = random.Random(seed)
    differences = pairs = 0
    for turn in range(count):
        file = file_of(KINDS[turn % 3], rand)
        wanted, text = pairs_of_report(printed("ties", file)), printed("pairs", file)
        found = pairs_of_matrix(text)
        pairs += len(wanted[1])
        if found != wanted:
            differences += 1
            print(f"{file!r}: `pairs` printed {text!r}, scipy has {found}, `ties` has {wanted}")
    print(f"mmread: {count} texts of `pairs`, {pairs} pairs, {differences} differences")
    return int(differences != 0)


sys.exit(main())
