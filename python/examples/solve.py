"""What the match is for: a sparse LU without row exchanges, before and after it.

    python/build.sh
    PYTHONPATH=python /usr/bin/python3 python/examples/solve.py [FILE.mtx ...] [--draws 200 [--plot OUT.svg]]

Each matrix is solved three ways by SuperLU (scipy's splu):

  raw       A x = b, the pivot is the diagonal entry, unless that is zero
  scaled    (R A C)[perm] y = (R b)[perm], then x = C y, with the same rule for pivots
  exchange  A x = b with row exchanges (partial pivoting), to compare with

R and C are powers of two ("whole"), so that nothing is rounded on the way there and back. The right-hand side belongs
to a known x, whose entries are from 1 to 2 in size, each in the unit of its column, C_j. Printed are
  error     the largest relative error of an entry of x
  growth    the largest entry of U over the largest entry of the matrix that is factored
  off       pivots that were taken off the diagonal; their places are what a solver with a fixed plan cannot have
Without a file the script makes its matrices: with rows shuffled, rows and columns scaled by powers of ten up to 6, and
three on which the match has nothing to go by. `--draws` solves so many more and prints the quartiles of their errors;
`--plot` draws them (matplotlib)."""

import argparse
import pathlib
import sys

import numpy as np
import scipy.io
import scipy.sparse as sp
from scipy.sparse.linalg import splu

import suontarvi

WAYS = "raw", "scaled", "exchange"


def random_sparse(rng, n, in_column):
    """Normal entries, of which the diagonal is among the larger ones, so that the matrix is not near a singular one."""
    rows = rng.integers(0, n, n * in_column)
    columns = np.repeat(np.arange(n), in_column)
    rest = sp.coo_matrix((rng.normal(size=rows.size), (rows, columns)), shape=(n, n))
    diagonal = sp.diags(rng.choice([-1.0, 1.0], n) * rng.uniform(1, 3, n))
    return sp.csc_matrix(rest + diagonal)


def spoilt(rng, matrix, decades=6):
    """Rows shuffled, rows and columns scaled by powers of ten from -decades to decades."""
    n = matrix.shape[0]
    factors = 10.0 ** rng.uniform(-decades, decades, (2, n))
    return sp.csc_matrix(sp.diags(factors[0]) @ matrix[rng.permutation(n)] @ sp.diags(factors[1]))


def grid(side):
    """The five-point stencil of a square, side by side points: a good matrix before it is spoilt."""
    line = sp.diags([-1.0, 2.0, -1.0], [-1, 0, 1], shape=(side, side))
    one = sp.identity(side)
    return sp.csc_matrix(sp.kron(line, one) + sp.kron(one, line))


def signs(rng, n, in_column):
    """A symmetric pattern of which every entry is +-1: all matchings have the same product, the match says nothing."""
    lower = sp.coo_matrix((np.ones(n * in_column), rng.integers(0, n, (2, n * in_column))), shape=(n, n))
    pattern = sp.csc_matrix(lower + lower.T + sp.identity(n))
    pattern.data = rng.choice([-1.0, 1.0], pattern.nnz)
    return pattern


def made(rng):
    """The script's own matrices, by name; the last three are those on which the match has nothing to go by: nothing is
    wrong with the first, and of the others every complete matching has the same product. Their pivots vanish on the way
    all the same, and one or two digits are lost against row exchanges."""
    return {
        "random 200": spoilt(rng, random_sparse(rng, 200, 3)),
        "random 1000": spoilt(rng, random_sparse(rng, 1000, 4)),
        "grid 20 x 20": spoilt(rng, grid(20)),
        "random 300, 10^9": spoilt(rng, random_sparse(rng, 300, 3), 9),
        "not spoilt": random_sparse(rng, 300, 3),
        "signs 120": signs(rng, 120, 2),
        "signs 400": signs(rng, 400, 2),
    }


def known_solution(rng, scaling, matrix):
    """x with entries from 1 to 2 in size, each in the unit of its column, and its right-hand side."""
    n = matrix.shape[0]
    x = np.ldexp(rng.choice([-1.0, 1.0], n) * rng.uniform(1, 2, n), scaling.column_exponents)
    return x, matrix @ x


def factored(matrix, rhs, exchange):
    """x, growth and pivots off the diagonal; None if SuperLU finds the matrix singular."""
    try:
        lu = splu(matrix, diag_pivot_thresh=1.0 if exchange else 0.0)
    except RuntimeError:
        return None
    with np.errstate(all="ignore"):
        growth = abs(lu.U).max() / abs(matrix).max()
        return lu.solve(rhs), growth, int(np.count_nonzero(lu.perm_r != lu.perm_c))


def solve_scaled(scaling, rhs):
    """The same by way of the match: R and C are powers of two, perm brings the matched entries to the diagonal."""
    if not scaling.match.complete:
        return None
    perm = scaling.match.perm
    permuted = sp.csc_matrix(scaling.scaled[perm])
    done = factored(permuted, np.ldexp(rhs, scaling.row_exponents)[perm], False)
    if done is None:
        return None
    y, growth, off = done
    return np.ldexp(y, scaling.column_exponents), growth, off


def error(found, x):
    """The largest relative error of an entry; 1 stands for all that is lost."""
    with np.errstate(all="ignore"):
        worst = np.max(abs(found - x) / abs(x))
    return min(worst, 1.0) if np.isfinite(worst) else 1.0


def solved(rng, matrix):
    """For each way its error, growth and pivots off the diagonal; None where the matrix is singular."""
    scaling = suontarvi.scale(matrix, "whole")
    x, rhs = known_solution(rng, scaling, matrix)
    ways = {
        "raw": factored(matrix, rhs, False),
        "scaled": solve_scaled(scaling, rhs),
        "exchange": factored(matrix, rhs, True),
    }
    return {way: done and (error(done[0], x), done[1], done[2]) for way, done in ways.items()}


def print_table(rng, matrices):
    print(f"{'matrix':16} {'n':>5} {'entries':>8}  {'way':9} {'error':>8} {'growth':>8} {'off':>5}")
    for name, matrix in matrices.items():
        for way, done in solved(rng, matrix).items():
            head = f"{name[:16]:16} {matrix.shape[0]:5} {matrix.nnz:8}" if way == WAYS[0] else " " * 31
            said = "singular" if done is None else f"{done[0]:8.1e} {done[1]:8.1e} {done[2]:5}"
            print(f"{head}  {way:9} {said}")


def draws(rng, count):
    """Errors of so many spoilt matrices, by way; 1 where one is singular."""
    errors = {way: [] for way in WAYS}
    for _ in range(count):
        matrix = spoilt(rng, random_sparse(rng, int(rng.integers(50, 400)), 3))
        for way, done in solved(rng, matrix).items():
            errors[way].append(done[0] if done else 1.0)
    return errors


def print_quartiles(errors):
    heads = " ".join(f"{head:>8}" for head in ("least", "quarter", "median", "quarter", "worst"))
    print(f"\nerrors of {len(errors['raw'])} draws   {heads}")
    for way, found in errors.items():
        print(f"  {way:18} ", *(f"{quartile:8.1e}" for quartile in np.quantile(found, [0, 0.25, 0.5, 0.75, 1])))


def plot(errors, out):
    import matplotlib

    matplotlib.use("svg")
    matplotlib.rcParams.update({"svg.fonttype": "none", "svg.hashsalt": "suontarvi", "font.size": 10})
    import matplotlib.pyplot as plt

    names = {
        "raw": ("A as it is, no exchanges", "#b3261e", ":"),
        "exchange": ("A as it is, row exchanges", "#8a6d00", "--"),
        "scaled": ("permuted and scaled, no exchanges", "#1f5fa8", "-"),
    }
    figure, axes = plt.subplots(figsize=(7.2, 3.8))
    for way, (name, colour, line) in names.items():
        found = sorted(errors[way])
        axes.semilogy(range(1, len(found) + 1), found, line, color=colour, linewidth=2, label=name)
    axes.set_xlabel(f"{len(errors['raw'])} matrices, each curve sorted by its own error")
    axes.set_ylabel("largest relative error of an entry of x")
    axes.set_ylim(1e-16, 3)
    axes.grid(True, which="major", linewidth=0.3)
    axes.legend(loc="center right", bbox_to_anchor=(1.0, 0.36), frameon=False)
    figure.tight_layout()
    figure.savefig(out, metadata={"Date": None, "Creator": None})


def read(file):
    """A matrix by name. Complex and rectangular ones are not for this library."""
    matrix = sp.csc_matrix(scipy.io.mmread(file))
    if np.iscomplexobj(matrix) or matrix.shape[0] != matrix.shape[1]:
        sys.exit(f"solve.py: {file}: the matrix is not real and square")
    return sp.csc_matrix(matrix, dtype=np.float64)


def main():
    arguments = argparse.ArgumentParser(description="Errors of a sparse LU before and after the match.")
    arguments.add_argument("files", nargs="*", metavar="FILE.mtx")
    arguments.add_argument("--draws", type=int, default=0, metavar="COUNT")
    arguments.add_argument("--plot", metavar="OUT.svg")
    arguments.add_argument("--seed", type=int, default=1)
    given = arguments.parse_args()
    if given.plot and given.draws < 1:
        arguments.error("--plot needs --draws")
    rng = np.random.default_rng(given.seed)
    matrices = {pathlib.Path(file).stem: read(file) for file in given.files}
    print_table(rng, matrices or made(rng))
    if given.draws > 0:
        errors = draws(rng, given.draws)
        print_quartiles(errors)
        if given.plot:
            plot(errors, given.plot)


if __name__ == "__main__":
    main()
