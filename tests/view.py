"""The page of `suontarvi view` in real Chromium, beside the library: `/usr/bin/python3 tests/view.py [--shots FOLDER]`.

The tool makes pages; a browser opens them, clicks, types and presses keys; what is shown, and what `window.suontarvi`
gives, is compared with python/suontarvi on the same file. Needs Debian's chromium, python3-numpy and python3-scipy,
the tool (cargo build --release) and python/build.sh. The last line says how many checks held."""

import argparse
import pathlib
import subprocess
import sys
import tempfile

import numpy as np
import scipy.io
import scipy.sparse as sp

ROOT = pathlib.Path(__file__).resolve().parent.parent
sys.path[:0] = [str(ROOT / "python"), str(ROOT / "tests")]
import suontarvi  # noqa: E402
from chromium import Browser  # noqa: E402

TOOL = ROOT / "host" / "target" / "release" / "suontarvi"
WEEK = ROOT / "host" / "examples" / "week.mtx"
# the margins of a panel, as page.html has them
LEFT, TOP = 46, 22

checks = 0


def holds(truth, *words):
    global checks
    checks += 1
    if not truth:
        raise AssertionError(" ".join(str(word) for word in words))


def same(found, wanted, *words):
    holds(found == wanted, *words, "is", found, "and not", wanted)


class Sheet:
    """A matrix, its costs and its match by the library; rows and columns from 1 in what it tells."""

    def __init__(self, file):
        self.matrix = sp.csc_matrix(scipy.io.mmread(file), dtype=float)
        self.matrix.sum_duplicates()
        self.n = self.matrix.shape[0]
        self.costs, _ = suontarvi.cost_graph(self.matrix)
        self.found = suontarvi.match_matrix(self.matrix)
        self.row_of = [int(row) + 1 if row >= 0 else None for row in self.found.perm]
        self.column_of = [None] * self.n
        for column, row in enumerate(self.row_of):
            if row:
                self.column_of[row - 1] = column + 1
        self.by_rows, self.value_rows = self.costs.tocsr(), self.matrix.tocsr()
        self.by_rows.sort_indices()

    def entry(self, row, column, cost):
        u, v = float(self.found.u[row]), float(self.found.v[column])
        value = self.column_values(column)[row]
        matched = self.row_of[column] == row + 1
        numbers = dict(value=value, cost=cost, u=u, v=v, slack=u + v - cost)
        return dict(row=row + 1, column=column + 1, **numbers, matched=matched)

    def column_values(self, column):
        if getattr(self, "kept", (None,))[0] != column:
            part = slice(self.matrix.indptr[column], self.matrix.indptr[column + 1])
            self.kept = column, dict(zip(self.matrix.indices[part].tolist(), self.matrix.data[part].tolist()))
        return self.kept[1]

    def row(self, row):
        part = slice(self.by_rows.indptr[row - 1], self.by_rows.indptr[row])
        ties = zip(self.by_rows.indices[part].tolist(), self.by_rows.data[part].tolist())
        return [self.entry(row - 1, column, cost) for column, cost in ties]

    def column(self, column):
        part = slice(self.costs.indptr[column - 1], self.costs.indptr[column])
        ties = zip(self.costs.indices[part].tolist(), self.costs.data[part].tolist())
        return [self.entry(row, column - 1, cost) for row, cost in ties]


def select(browser, kind, number):
    return browser.run(f"window.suontarvi.select({{{kind}: {number}}})")


def agrees(selected, sheet, kind, number):
    """What the page gives of a row or a column is what the library has."""
    same(selected[kind], number, kind)
    match = (sheet.column_of if kind == "row" else sheet.row_of)[number - 1]
    same(selected["match"], match, f"the match of {kind} {number}")
    same(selected["entries"], getattr(sheet, kind)(number), f"the entries of {kind} {number}")
    same(selected["reason"] is None, match is not None, f"a reason of {kind} {number}")
    if selected["reason"]:
        competes(selected, sheet, kind, number)


def competes(selected, sheet, kind, number):
    """The reason is a Hall violator: all its members' ties lead to fewer partners than it has members."""
    across_kind = "column" if kind == "row" else "row"
    own, across = selected["reason"][kind + "s"], selected["reason"][across_kind + "s"]
    holds(number in own and len(set(own)) == len(own), "the set has", kind, number)
    reached = {entry[across_kind] for member in own for entry in getattr(sheet, kind)(member)}
    same(sorted(reached), across, f"the partners of the {kind}s {own[:9]}")
    same(len(across), len(own) - 1, "their number")


def shown_table(browser):
    """The numbers of the table as they stand on the page, and which line is marked."""
    return browser.run("""[...document.querySelectorAll("#details tbody tr")].map(row => ({
        numbers: [...row.cells].map((cell, at) => Number(at ? cell.textContent : cell.querySelector("a").textContent)),
        matched: row.classList.contains("matched") }))""")


def table_agrees(browser, sheet, kind, number):
    """What a person reads: heading, numbers, the mark."""
    same(browser.run('document.querySelector("#details h2").textContent'), f"{kind} {number}", "the heading")
    wanted = getattr(sheet, kind)(number)
    other = "column" if kind == "row" else "row"
    rows = shown_table(browser)
    same(len(rows), len(wanted), "the lines of the table")
    for row, entry in zip(rows, wanted):
        index, value, *rest = row["numbers"]
        same(index, entry[other], other)
        holds(abs(value - entry["value"]) <= 1e-5 * abs(entry["value"]), value, "is not", entry["value"])
        same(rest[:4], [entry[name] for name in ("cost", "u", "v", "slack")], "the numbers shown")
        same(row["matched"], entry["matched"], "the mark")


def canvas(browser, name):
    browser.run(f'document.getElementById("{name}").scrollIntoView({{block: "center"}})')
    return browser.run(f"""(() => {{ const box = document.getElementById("{name}").getBoundingClientRect();
        return [box.x, box.y, box.width]; }})()""")


def cell(browser, name, n, row, column):
    """The middle of a cell of a whole panel, or of its margin where row or column is None."""
    x, y, width = canvas(browser, name)
    side = (width - LEFT - 2) / n
    across = LEFT / 2 if column is None else LEFT + (column - 0.5) * side
    down = TOP / 2 if row is None else TOP + (row - 0.5) * side
    return x + across, y + down


def every_one(browser, sheet, numbers=None):
    for kind in ("row", "column"):
        for number in numbers or range(1, sheet.n + 1):
            agrees(select(browser, kind, number), sheet, kind, number)


def small(browser, page, sheet, shots):
    browser.size(1400, 1000)
    browser.open(page)
    same(browser.run("window.suontarvi.selection()"), None, "the selection at first")
    holds("Every column has its row" in browser.run('document.getElementById("unmatched").textContent'), "complete")
    every_one(browser, sheet)
    # a click in a cell, in both modes, in both panels, and in the margins
    browser.click(*cell(browser, "before", 7, 4, 5))
    table_agrees(browser, sheet, "row", 4)
    same(browser.run('document.querySelectorAll("#details tr.clicked").length'), 1, "the line of the clicked entry")
    browser.picture(shots / "small.png")
    browser.click(*cell(browser, "before", 7, 4, 5), modifiers=8)
    table_agrees(browser, sheet, "column", 5)
    browser.run('document.querySelector("input[value=column]").click()')
    browser.click(*cell(browser, "after", 7, 2, 6))
    table_agrees(browser, sheet, "column", 6)
    browser.click(*cell(browser, "after", 7, 3, None))
    table_agrees(browser, sheet, "row", sheet.row_of[2])
    browser.click(*cell(browser, "before", 7, None, 2))
    table_agrees(browser, sheet, "column", 2)
    # a neighbour by its link, and the address
    browser.click_on("#details tbody tr:last-child a")
    last = sheet.column(2)[-1]["row"]
    table_agrees(browser, sheet, "row", last)
    same(browser.run("location.hash"), f"#row={last}", "the address")
    browser.run("history.back()")
    browser.settle()
    same(browser.run("window.suontarvi.selection().column"), 2, "one back")
    # a number that is typed
    browser.run('document.getElementById("what").value = "row"')
    browser.click_on("#number")
    browser.run('document.getElementById("number").value = ""')
    browser.key("6")
    browser.key("Enter", "\r")
    table_agrees(browser, sheet, "row", 6)
    by_address(browser, page, sheet)
    by_keys(browser, sheet)
    by_zoom(browser, sheet)


def by_address(browser, page, sheet):
    browser.open(page + "#column=7")
    table_agrees(browser, sheet, "column", 7)
    for wrong in ("#row=8", "#row=0", "#column=99999999999999999999"):
        browser.open(page + wrong)
        same(browser.run("window.suontarvi.selection()"), None, wrong)
        holds("1 to 7" in browser.run('document.getElementById("details").textContent'), "told of", wrong)
    for wrong in ("#", "#row=x", "#row=-1", "#sheet=1"):
        browser.open(page + wrong)
        same(browser.run("window.suontarvi.selection()"), None, wrong)
    same(browser.run("window.suontarvi.select({row: 1.5})"), None, "half a row")
    same(browser.run("window.suontarvi.select()"), None, "nothing")
    browser.open(page + "#row=3")
    table_agrees(browser, sheet, "row", 3)


def by_keys(browser, sheet):
    browser.run("document.activeElement.blur(), window.suontarvi.select({row: 7})")
    for key, kind, number in [("n", "row", 1), ("p", "row", 7), ("m", "column", sheet.column_of[6])]:
        browser.key(key)
        same(browser.run(f"window.suontarvi.selection().{kind}"), number, "the key", key)
    browser.key("Escape")
    same(browser.run("window.suontarvi.selection()"), None, "the key Escape")
    browser.key("g")
    same(browser.run("document.activeElement.id"), "number", "the key g")
    browser.key("Escape")
    browser.key("?")
    same(browser.run('document.getElementById("help").open'), True, "the key ?")
    browser.run('document.getElementById("help").close()')


def by_zoom(browser, sheet):
    """Zoomed in at the lower right corner and panned back, a click finds the cell that stands there."""
    browser.run('document.querySelector("input[value=row]").click()')
    x, y = cell(browser, "before", 7, 7, 7)
    for _ in range(8):
        browser.mouse("mouseWheel", x, y, deltaX=0, deltaY=-400)
    browser.settle()
    left, top, width = canvas(browser, "before")
    browser.click(left + width - 8, top + width - 8 - 24)
    holds(browser.run("window.suontarvi.selection().row") >= 6, "zoomed in at the corner")
    before = browser.run("window.suontarvi.selection().row")
    browser.drag((left + 100, top + 100), (left + width - 20, top + width - 60))
    browser.click(left + width / 2, top + TOP + 12)
    holds(browser.run("window.suontarvi.selection().row") < before, "panned back")
    browser.click_on("figure:first-of-type [data-zoom='0']")
    browser.click(*cell(browser, "before", 7, 1, 1))
    same(browser.run("window.suontarvi.selection().row"), 1, "whole again")
    browser.run('document.getElementById("before").focus()')
    for key in ("+", "+", "ArrowDown", "ArrowDown", "ArrowDown", "ArrowRight", "-", "0"):
        browser.key(key)
    browser.click(*cell(browser, "before", 7, 2, 1))
    same(browser.run("window.suontarvi.selection().row"), 2, "after keys in the panel")


def singular(browser, page, sheet, shots):
    browser.size(1400, 1000)
    browser.open(page)
    listed = browser.run('[...document.querySelectorAll("#unmatched li")].map(item => item.textContent)')
    free = sheet.n - sheet.found.matched
    same(len(listed), 2 * free, "the unmatched ones listed")
    first = browser.run('document.querySelector("main").firstElementChild.id')
    same(first, "unmatched", "what stands first")
    every_one(browser, sheet)
    shortages(browser, sheet)
    holds(any("it has no entries" in item for item in listed), "an empty one is told")
    holds(any("compete for" in item for item in listed), "a crowd is told")
    browser.click_on("#unmatched li:nth-child(2) a")
    browser.key("f")
    holds(browser.run("window.suontarvi.selection().match") is None, "the key f finds a free one")
    browser.picture(shots / "singular.png")


def shortages(browser, sheet):
    """The parts that compete are those of the library's marks, and each is told by a sentence."""
    parts = browser.run("window.suontarvi.shortages")
    largest = suontarvi.check_largest(sheet.costs, sheet.found)
    for name, marks in (("columns", largest.columns), ("rows", largest.rows)):
        same(sorted(sum((part[name] for part in parts), [])), (np.flatnonzero(marks) + 1).tolist(), name)
    for part in parts:
        reached = {entry["row"] for column in part["columns"] for entry in sheet.column(column)}
        same(sorted(reached), part["rows"], "the rows of", part["columns"])
        same(len(part["columns"]) - len(part["rows"]), part["empty"], "those that stay empty")
    same(sum(part["empty"] for part in parts), largest.empty, "all that stay empty")
    told = browser.run('[...document.querySelectorAll("#unmatched .shortage")].map(part => part.textContent)')
    holds(any("no entry other than zero" in part for part in told), "the empty column is told")
    columns = "columns 4, 8, 10, 31, 32, 33, 34, 35, 36"
    crowd = f"{columns} have entries only in rows 4, 8, 10, 36: 5 of them stay without a row"
    holds(crowd in told, crowd, "is told and not", told)


def large(browser, page, sheet, shots):
    browser.size(1400, 1000)
    seconds = browser.open(page)
    picked = browser.run("""(() => { const began = performance.now(); window.suontarvi.select({row: 2000});
        return performance.now() - began; })()""")
    browser.settle()
    drawn = browser.run("""new Promise(done => { const began = performance.now();
        document.querySelector("[data-zoom='2']").click();
        requestAnimationFrame(() => requestAnimationFrame(() => done(performance.now() - began))); })""")
    size = f"{sheet.n} columns, {sheet.costs.nnz} ties"
    print(f"{size}: open {seconds:.2f} s, select {picked:.0f} ms, zoom {drawn:.0f} ms")
    holds(seconds < 4, "it opens in", seconds)
    every_one(browser, sheet, [1, 2, 777, 2000, sheet.n - 1, sheet.n])
    select(browser, "column", 777)
    browser.run('document.querySelector("[data-zoom=\\"0\\"]").click()')
    browser.settle()
    browser.picture(shots / "large.png")
    browser.click_on("#closer")
    browser.run("scrollTo(0, 0)")
    browser.settle()
    browser.picture(shots / "large-closer.png")


def phone(browser, page, sheet, shots):
    browser.size(390, 844, 2, True)
    browser.open(page + "#row=4")
    same(browser.run("document.documentElement.scrollWidth"), 390, "the width on a phone")
    table_agrees(browser, sheet, "row", 4)
    browser.picture(shots / "phone.png", True)
    browser.theme("dark")
    browser.settle()
    dark = browser.run("getComputedStyle(document.body).backgroundColor")
    browser.run('document.getElementById("chosen").scrollIntoView()')
    browser.settle()
    browser.picture(shots / "phone-dark.png")
    browser.run('document.getElementById("theme").click()')
    holds(browser.run("getComputedStyle(document.body).backgroundColor") != dark, "the button changes the theme")
    browser.theme("light")
    browser.size(1400, 1000)


def edges(browser, folder):
    """Empty, of one entry, a pattern, a name that is no name, values at the ends of the range."""
    cases = {
        "empty": "%%MatrixMarket matrix coordinate real general\n0 0 0\n",
        "hollow": "%%MatrixMarket matrix coordinate real general\n2 2 0\n",
        "zero": "%%MatrixMarket matrix coordinate real general\n1 1 1\n1 1 0\n",
        "one": "%%MatrixMarket matrix coordinate real general\n1 1 1\n1 1 -3\n",
        "pattern": "%%MatrixMarket matrix coordinate pattern symmetric\n3 3 3\n1 1\n2 1\n3 2\n",
        "ends": "%%MatrixMarket matrix coordinate real general\n2 2 3\n1 1 5e-324\n2 1 1e308\n2 2 1e-300\n",
        "<b>&\"'\\\n\u202e": "%%MatrixMarket matrix coordinate real general\n1 1 1\n1 1 2\n",
    }
    for name, text in cases.items():
        file = folder / (name + ".mtx")
        file.write_text(text)
        browser.open(made(file, folder / "edge.html"))
        sheet = Sheet(file)
        every_one(browser, sheet)
        holds(browser.run('document.getElementById("facts").textContent').count("n = "), "the facts of", name)
        if name == "pattern":
            holds("magnitude 1" in browser.run('document.getElementById("scale").textContent'), "no false scale")


def made(file, out):
    subprocess.run([TOOL, "view", file, out], check=True, stdout=subprocess.DEVNULL)
    return out.resolve().as_uri()


def matrices(folder):
    """A singular one with a crowd, an empty row and an empty column; one at the limits."""
    rng = np.random.default_rng(3)
    n = 40
    crowded = sp.lil_matrix((n, n))
    crowded.setdiag(rng.uniform(1, 9, n))
    for column in (30, 31, 32, 33, 34):
        crowded[:, column] = 0
        crowded[[3, 7, 9], column] = rng.uniform(1, 9, 3)
    crowded[:, 12] = 0
    crowded[20, :] = 0
    crowded[35, 5:9] = 2.5
    scipy.io.mmwrite(folder / "singular.mtx", crowded.tocoo())
    n, in_column = 4096, 64
    rows = (np.arange(n)[:, None] * 3 + np.cumsum(rng.integers(1, 60, (n, in_column)), axis=1)) % n
    values = rng.normal(size=rows.shape) * 10.0 ** rng.uniform(-8, 8, (n, 1)) * 10.0 ** rng.uniform(-4, 4, rows.shape)
    places = rows.ravel(), np.repeat(np.arange(n), in_column)
    scipy.io.mmwrite(folder / "large.mtx", sp.coo_matrix((values.ravel(), places), shape=(n, n)))


def main():
    arguments = argparse.ArgumentParser()
    arguments.add_argument("--shots", type=pathlib.Path)
    given = arguments.parse_args()
    with tempfile.TemporaryDirectory() as name:
        folder = pathlib.Path(name)
        shots = given.shots or folder
        shots.mkdir(parents=True, exist_ok=True)
        matrices(folder)
        browser = Browser()
        try:
            pages = {file: (made(file, folder / (file.stem + ".html")), Sheet(file))
                     for file in (WEEK, folder / "singular.mtx", folder / "large.mtx")}
            for test, file in zip((small, singular, large), pages):
                test(browser, *pages[file], shots)
            phone(browser, *pages[WEEK], shots)
            edges(browser, folder)
            same(browser.errors, [], "what the page threw")
            outside = [address for address in browser.asked if not address.startswith(("file:", "about:", "data:"))]
            same(outside, [], "what the page asked for")
        finally:
            browser.close()
    print(f"{checks} checks of the page hold in Chromium")


if __name__ == "__main__":
    main()
