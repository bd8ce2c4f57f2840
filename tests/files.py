"""The tool's files beside other readers and writers: `/usr/bin/python3 tests/files.py`, after a release build of host/.

Harwell-Boeing files that scipy writes are read as the Matrix Market files of the same matrices; what examples/scale.c
prints is what `apply --rule whole` writes, in every bit; a system is solved there and back; pictures and pages of odd
names are valid; lines of JSON are; what `check` proves of small sheets holds of every matching, by exact fractions. The
last line says how many checks held."""

import html.parser
import itertools
import json
import math
import pathlib
import subprocess
import tempfile
import xml.etree.ElementTree
from fractions import Fraction

import numpy as np
import scipy.io
import scipy.sparse as sp

ROOT = pathlib.Path(__file__).resolve().parent.parent
TOOL = ROOT / "host" / "target" / "release" / "suontarvi"
WEEK = ROOT / "host" / "examples" / "week.mtx"

checks = 0


def holds(truth, *words):
    global checks
    checks += 1
    if not truth:
        raise AssertionError(" ".join(str(word) for word in words))


def tool(*words):
    return subprocess.run([TOOL, *words], check=True, capture_output=True, text=True).stdout


def random_matrix(rng, n):
    entries = int(rng.integers(n, 5 * n))
    rows = np.append(rng.integers(0, n, entries), rng.permutation(n))
    columns = np.append(rng.integers(0, n, entries), np.arange(n))
    values = rng.normal(size=rows.size) * 10.0 ** rng.integers(-9, 10, rows.size)
    matrix = sp.csc_matrix(sp.coo_matrix((values, (rows, columns)), shape=(n, n)))
    matrix.sum_duplicates()
    return matrix


def boeing(folder, rng):
    """Forty matrices in both forms: same match, same duals, to the last bit."""
    for count in range(40):
        matrix = random_matrix(rng, int(rng.integers(1, 60)))
        scipy.io.hb_write(folder / "x.rb", matrix)
        # 17 digits, so that both files have the same numbers
        read = sp.csc_matrix(scipy.io.hb_read(folder / "x.rb"))
        scipy.io.mmwrite(folder / "x.mtx", read, precision=17)
        one, other = (tool("match", folder / name, "--json") for name in ("x.rb", "x.mtx"))
        holds(one == other, "Harwell-Boeing", count)


def bits(text):
    lines = [line.split() for line in text.splitlines() if not line.startswith("%")][1:]
    return {(int(row), int(column)): np.float64(value).tobytes() for row, column, value in lines}


def by_c(folder, rng):
    """examples/scale.c and apply: the same matrix."""
    program = folder / "scale"
    archive = ROOT / "target" / "staticlib" / "libsuontarvi.a"
    words = ["cc", "-std=c99", "-Wall", "-Wextra", "-Werror", "-pedantic", f"-I{ROOT / 'include'}"]
    subprocess.run([*words, ROOT / "examples" / "scale.c", archive, "-o", program], check=True)
    for count in range(20):
        file = folder / "c.mtx"
        scipy.io.mmwrite(file, random_matrix(rng, int(rng.integers(1, 60))), precision=17)
        printed = subprocess.run([program, file], check=True, capture_output=True, text=True).stdout
        tool("apply", file, "-o", folder / "applied.mtx", "--rule", "whole")
        holds(bits(printed) == bits((folder / "applied.mtx").read_text()), "C and apply", count)
    head = "%%MatrixMarket matrix coordinate real general\n"
    for text, said in [
        ("", "the first line is not the banner"),
        (head + "2 2 1\n1 1 1\n", "matched 1 of 2"),
        (head + "2 2 1\n3 1 1\n", "an entry is outside"),
        (head + "1 1 1\n1 1 inf\n", "the values: refused with 9"),
    ]:
        file.write_text(text)
        done = subprocess.run([program, file], capture_output=True, text=True)
        holds(done.returncode == 1 and said in done.stderr, "C says", done.stderr)


def there_and_back(folder, rng):
    """A x = b by way of apply, a dense solver and restore."""
    for rule in ("natural", "whole"):
        for count in range(10):
            n = int(rng.integers(2, 40))
            good = rng.normal(size=(n, n)) * (rng.random((n, n)) < 0.3) * 0.1 + np.diag(rng.uniform(2, 3, n))
            factors = 10.0 ** rng.uniform(-8, 8, (2, n))
            matrix = np.diag(factors[0]) @ good[rng.permutation(n)] @ np.diag(factors[1])
            x = rng.uniform(1, 2, n) / factors[1]
            scipy.io.mmwrite(folder / "a.mtx", sp.coo_matrix(matrix), precision=17)
            scipy.io.mmwrite(folder / "b.mtx", (matrix @ x)[:, None], precision=17)
            tool("apply", folder / "a.mtx", "-o", folder / "ready.mtx", "--rhs", folder / "b.mtx", "--rule", rule)
            ready = scipy.io.mmread(folder / "ready.mtx").toarray()
            diagonal = abs(np.diag(ready))
            one = np.allclose(diagonal, 1, rtol=1e-9) if rule == "natural" else diagonal.min() > 0.25
            holds(one and abs(ready).max() < 2, "scaled", count)
            y = np.linalg.solve(ready, scipy.io.mmread(folder / "ready.rhs.mtx"))
            scipy.io.mmwrite(folder / "y.mtx", y, precision=17)
            tool("restore", folder / "ready.mtx", "--solution", folder / "y.mtx", "-o", folder / "x.mtx")
            found = scipy.io.mmread(folder / "x.mtx").ravel()
            holds((abs(found - x) <= 1e-10 * abs(x)).all(), "solved", rule, count, abs(found / x - 1).max())


class Page(html.parser.HTMLParser):
    """The title of a page and its data."""

    def __init__(self, text):
        super().__init__()
        self.parts, self.at = {}, None
        self.feed(text)

    def handle_starttag(self, tag, attributes):
        self.at = "data" if ("id", "data") in attributes else tag

    def handle_endtag(self, tag):
        self.at = None

    def handle_data(self, data):
        if self.at:
            self.parts[self.at] = self.parts.get(self.at, "") + data


def names(folder):
    """Names that mean something in XML or HTML, or that a terminal would obey."""
    odd = ["<b>&amp;\"'.mtx", "\x01\x1b[31m\n\t.mtx", "\u202ebackwards.mtx", "]]>.mtx", "<\u2044script>.mtx", "größe 日本.mtx"]
    for name in odd:
        file = folder / name
        file.write_bytes(WEEK.read_bytes())
        tool("picture", file, folder / "name.svg")
        root = xml.etree.ElementTree.parse(folder / "name.svg").getroot()
        title = next(root.iter("{http://www.w3.org/2000/svg}text")).text
        holds(title.endswith(": n = 7, 20 entries") and title.isprintable(), "the title", repr(title))
        tool("view", file, folder / "name.html")
        page = Page((folder / "name.html").read_text())
        shown = json.loads(page.parts["data"])["name"]
        holds(shown.isprintable() and page.parts["title"] == shown and title.startswith(shown), "the page", repr(shown))


def lines(folder, rng):
    """Lines of JSON, one a file, in order; each command."""
    many = folder / "many"
    many.mkdir()
    for count in range(30):
        scipy.io.mmwrite(many / f"{count:02}.mtx", random_matrix(rng, 20), precision=17)
    (many / "07.mtx").write_text("nothing")
    to = ["--out-dir", folder / "out"]
    for words in (["match", many], ["scale", many], ["apply", many, *to], ["view", many, *to]):
        done = subprocess.run([TOOL, *words, "--json"], capture_output=True, text=True)
        objects = [json.loads(line) for line in done.stdout.splitlines()]
        files = [pathlib.Path(each["file"]).name for each in objects]
        holds(files == [f"{count:02}.mtx" for count in range(30)], "in order")
        holds([count for count, each in enumerate(objects) if "error" in each] == [7], "the refused one")
        summary = json.loads(done.stderr)
        holds(done.returncode == 1 and summary["files"] == 30 and summary["refused"] == 1, "the summary", summary)


def small_matrix(rng):
    """Up to five columns: values over many magnitudes, or so near to each other that the logarithms round them away."""
    n = int(rng.integers(1, 6))
    places = [(row, column) for row in range(n) for column in range(n) if rng.random() < rng.choice([0.4, 0.7, 1])]
    mood = rng.integers(3)
    value = {
        0: lambda: rng.normal() * 10.0 ** rng.integers(-300, 300),
        1: lambda: 1 + rng.integers(0, 4) * 2.0**-52,
        2: lambda: 1e5 * (1 + rng.integers(0, 9) * 1e-7),
    }[int(mood)]
    return n, {place: float(value()) for place in places}


def proofs(folder, rng):
    """No matching has a product larger than the factor of a sheet says; columns that compete have only these rows."""
    file, sheet = folder / "small.mtx", folder / "small.sheet"
    for count in range(150):
        n, entries = small_matrix(rng)
        lines = [f"{row + 1} {column + 1} {value!r}" for (row, column), value in entries.items()]
        head = f"%%MatrixMarket matrix coordinate real general\n{n} {n} {len(lines)}\n"
        file.write_text(head + "".join(line + "\n" for line in lines))
        tool("sheet", "write", file, sheet)
        said = json.loads(tool("check", file, sheet, "--json"))
        rows = json.loads(tool("sheet", "read", sheet, "--json"))["rows"]
        size = {place: abs(Fraction(value)) for place, value in entries.items()}
        whole = [perm for perm in itertools.permutations(range(n)) if all(pair in size for pair in zip(perm, range(n)))]
        holds(said["complete"] == bool(whole), "complete", count)
        if whole:
            best = max(math.prod(size[pair] for pair in zip(perm, range(n))) for perm in whole)
            own = math.prod(size[row - 1, column] for column, row in enumerate(rows))
            holds(best <= own * Fraction(said["certificate"]["factor"]), "the factor", count, said)
            continue
        parts = said["shortages"]
        for part in parts:
            reached = {row + 1 for row, column in size if column + 1 in part["columns"]}
            holds(sorted(reached) == part["rows"] and len(part["columns"]) - len(reached) == part["empty"] > 0, part)
        holds(sum(part["empty"] for part in parts) == rows.count(None), "those that stay empty", count)


def main():
    rng = np.random.default_rng(43)
    with tempfile.TemporaryDirectory() as name:
        folder = pathlib.Path(name)
        boeing(folder, rng)
        by_c(folder, rng)
        there_and_back(folder, rng)
        names(folder)
        lines(folder, rng)
        proofs(folder, rng)
    print(f"{checks} checks of files hold")


if __name__ == "__main__":
    main()
