"""Our match, MUMPS' weighted matching and scipy's, on the same cost graphs: totals, which must be equal, and times.

Every graph has a complete matching and whole costs. Each side has its own form of the graph, made before; ours and
MUMPS' are lent their work, scipy allocates its own. scipy takes no cost of 0: its costs are 1 more. Times are the
thread's processor time, medians of rounds in which the three take turns."""

import ctypes
import math
import pathlib
import statistics
import sys
import time

import numpy as np
import scipy.sparse as sp
from scipy.sparse.csgraph import min_weight_full_bipartite_matching

sys.path.insert(0, str(pathlib.Path(__file__).resolve().parents[2] / "python"))
import suontarvi  # noqa: E402

SIDES = ("ours", "MUMPS", "scipy")
LEAST_ROUNDS = 5
N = 4096
COSTS = {"below 16": 16, "below 2^36": 1 << 36}


def random_rows(rng, n, per_column):
    """For each column so many rows; among them those of a hidden complete matching."""
    for row in rng.permutation(n):
        others = rng.choice(n - 1, per_column - 1, replace=False)
        yield np.sort(np.append(others + (others >= row), row))


def band_rows(reach):
    """The rows up to `reach` from the diagonal."""
    for column in range(N):
        yield np.arange(max(0, column - reach), min(N, column + reach + 1))


def grid_rows(side, dimensions):
    """The points of a grid and their neighbours."""
    for point in np.ndindex(*[side] * dimensions):
        near = [point]
        for axis in range(dimensions):
            for step in (-1, 1):
                other = list(point)
                other[axis] += step
                if 0 <= other[axis] < side:
                    near.append(tuple(other))
        yield np.sort(np.ravel_multi_index(np.array(near).T, [side] * dimensions))


def long_rows(long):
    """Short columns hold the diagonal and one of the last rows, the last columns all the other rows."""
    short = N - long
    for column in range(short):
        yield np.array([column, short + column % long])
    for _ in range(long):
        yield np.arange(short)


def long_costs(rng, below, long):
    """The diagonal is free of cost, so that the long columns' searches go through the whole heap."""
    short = rng.integers(0, below, (N - long, 2))
    short[:, 0] = 0
    return np.concatenate([short.ravel(), rng.integers(0, below // 4, long * (N - long))])


def graphs(rng):
    """Name, rows of each column, and costs below a number."""
    for n, per_column in ((256, 8), (1024, 8), (N, 4), (N, 16), (N, 64)):
        yield f"random, n {n}, {per_column} a column", list(random_rows(rng, n, per_column)), None
    for reach in (2, 31):
        yield f"band of {2 * reach + 1}, n {N}", list(band_rows(reach)), None
    for side, dimensions in ((64, 2), (16, 3)):
        yield f"grid {' x '.join([str(side)] * dimensions)}, n {N}", list(grid_rows(side, dimensions)), None
    for long in (8, 32):
        name = f"{long} long columns, n {N}"
        yield name, list(long_rows(long)), lambda below, long=long: long_costs(rng, below, long)


class Graph:
    """A graph in the three forms, with a call for each side."""

    def __init__(self, rows, cost):
        n, self.cost = len(rows), cost.astype(np.float64)
        self.pointers = np.concatenate([[0], np.cumsum([len(column) for column in rows])])
        self.rows = np.concatenate(rows)
        self.n, self.entries = n, len(self.rows)
        self.calls = {"ours": self.prepare_ours(), "MUMPS": self.prepare_mumps(), "scipy": self.prepare_scipy()}

    def prepare_ours(self):
        n = self.n
        read = self.pointers.astype(np.uint32), self.rows.astype(np.uint32), self.cost
        perm, answer = np.zeros(n, np.uint32), np.zeros(8, np.uint64)
        work = np.zeros(n), np.zeros(n), np.zeros(12 * n + 1, np.uint32), np.zeros(2 * n)
        self.ours = (*read, perm, *work, answer)
        words = suontarvi.lend((n, *self.ours))
        call = suontarvi.library().suontarvi_match
        return lambda: call(*words)

    def prepare_mumps(self):
        """Everything by reference; indices from 1, pointers and the entry count of 64 bits."""
        n = self.n
        sizes = np.array([n], np.int32), np.array([n], np.int32), np.array([self.entries], np.int64)
        graph = self.pointers.astype(np.int64) + 1, self.rows.astype(np.int32) + 1, self.cost.copy()
        answer = np.zeros(n, np.int32), np.zeros(1, np.int32)
        work = [np.zeros(n, np.int64) for _ in range(6)]
        large = np.array([np.finfo(np.float64).max])
        self.mumps = (*sizes, *graph, *answer, *work, np.zeros(n), np.zeros(n), large)
        words = [ctypes.c_void_p(array.ctypes.data) for array in self.mumps]
        call = ctypes.CDLL("libdmumps_seq.so").dmumps_mtransw_
        return lambda: call(*words)

    def prepare_scipy(self):
        """Our columns are its rows, so that it need not turn the matrix."""
        columns = self.cost + 1.0, self.rows.astype(np.int32), self.pointers.astype(np.int32)
        graph = sp.csr_matrix(columns, shape=(self.n, self.n))
        return lambda: min_weight_full_bipartite_matching(graph)

    def totals(self):
        """The exact total of each side's complete matching, and our searches."""
        assert self.calls["ours"]() == 0, "the graph is taken"
        perm, answer = self.ours[3], self.ours[-1]
        found = {"ours": perm.astype(np.int64)}
        self.calls["MUMPS"]()
        column_of_row = self.mumps[6].astype(np.int64) - 1
        found["MUMPS"] = np.argsort(column_of_row)
        columns, rows = self.calls["scipy"]()
        found["scipy"] = rows[np.argsort(columns)]
        return {side: self.total(rows) for side, rows in found.items()}, int(answer[2])

    def total(self, row_of_column):
        """Of a complete matching; nothing is rounded."""
        assert sorted(row_of_column) == list(range(self.n)), "each row has one column"
        total = 0
        for column, row in enumerate(row_of_column):
            start, end = self.pointers[column], self.pointers[column + 1]
            place = start + np.searchsorted(self.rows[start:end], row)
            assert place < end and self.rows[place] == row, "a pair is an entry"
            total += int(self.cost[place])
        return total

    def times(self, milliseconds):
        """The median of each side, in microseconds."""
        rounds = {side: [] for side in SIDES}
        repeats = {side: self.repeats(side) for side in SIDES}
        end = time.monotonic() + milliseconds / 1e3
        while len(rounds["ours"]) < LEAST_ROUNDS or time.monotonic() < end:
            for side in SIDES:
                rounds[side].append(self.time(side, repeats[side]))
        return {side: statistics.median(rounds[side]) for side in SIDES}

    def repeats(self, side):
        """So many calls take two milliseconds."""
        self.time(side, 1)
        return math.ceil(2e3 / self.time(side, 1))

    def time(self, side, repeats):
        call = self.calls[side]
        start = time.thread_time_ns()
        for _ in range(repeats):
            call()
        return (time.thread_time_ns() - start) / 1e3 / repeats


def ratio_cell(sittings, peer):
    """The middle ratio of ours to the peer's time, the least and the largest."""
    ratios = sorted(times["ours"] / times[peer] for times in sittings)
    return ratios[len(ratios) // 2], f"{ratios[len(ratios) // 2]:.2f} ({ratios[0]:.2f} {ratios[-1]:.2f})"


def main():
    milliseconds = int(sys.argv[1]) if len(sys.argv) > 1 else 2000
    sittings = int(sys.argv[2]) if len(sys.argv) > 2 else 3
    rng = np.random.default_rng(20261116)
    rows = []
    for name, columns, costs in graphs(rng):
        entries = sum(map(len, columns))
        for text, below in COSTS.items():
            cost = costs(below) if costs else rng.integers(0, below, entries)
            graph = Graph(columns, cost)
            totals, searches = graph.totals()
            assert len(set(totals.values())) == 1, f"{name}, costs {text}: totals {totals}"
            rows.append((f"{name}, {entries} entries, costs {text}, {searches} searches", graph, []))
    for _ in range(sittings):
        for _, graph, sitting in rows:
            sitting.append(graph.times(milliseconds))
    report(rows)


def report(rows):
    print("| graph | ours, us | MUMPS, us | ours to MUMPS | scipy, us | ours to scipy |")
    print("|---|---:|---:|---:|---:|---:|")
    ratios = {"MUMPS": [], "scipy": []}
    for name, _, sittings in rows:
        middle = {side: statistics.median(times[side] for times in sittings) for side in SIDES}
        cells = {}
        for peer in ratios:
            ratio, cells[peer] = ratio_cell(sittings, peer)
            ratios[peer].append(ratio)
        print(f"| {name} | {middle['ours']:.0f} | {middle['MUMPS']:.0f} | {cells['MUMPS']} "
              f"| {middle['scipy']:.0f} | {cells['scipy']} |")
    for peer, of_peer in ratios.items():
        least, middle, largest = min(of_peer), statistics.median(of_peer), max(of_peer)
        print(f"\nours to {peer}: least {least:.2f}, median {middle:.2f}, largest {largest:.2f}")
    print(f"\n{len(rows)} graphs, all totals equal")


if __name__ == "__main__":
    main()
