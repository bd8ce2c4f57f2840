"""MC64 matching and scaling for numpy and scipy.sparse, over a library in which every call is proved.

A direct solver for a sparse, square system wants large entries on its diagonal. `scale` finds them and does the whole
job in one call: the row of each column, factors of rows and columns, and the scaled matrix.

>>> import numpy, suontarvi
>>> scaling = suontarvi.scale(numpy.array([[1.0, 1024.0], [8.0, 3.0]]), "whole")
>>> scaling.match.perm
array([1, 0])
>>> scaling.scaled[scaling.match.perm].toarray()
array([[1.        , 0.00292969],
       [0.125     , 1.        ]])

A matrix, or a graph of costs, is square, and a numpy array, scipy.sparse of any format, a pandas frame or lists of
numbers. Repeated entries of a sparse matrix are summed. n is at most 4,096, entries at most 262,144 (131,072 in the
lower triangle of a symmetric matrix), every stored place counted. Rows and columns count from 0.

Nothing is guessed. Booleans, complex numbers, objects, text, masked arrays and anything that is not an array raise a
TypeError; a wrong shape, an integer above 2^53 or a number beyond the range of doubles raises a ValueError. A refusal
of the library raises `Refused`, a ValueError with the number and the name that include/suontarvi.h has for it.
"""

from __future__ import annotations

import ctypes
import math
from dataclasses import dataclass, field
from typing import Any

try:
    import numpy as np
    import scipy.sparse as sp
except ImportError as _error:
    raise ImportError(f"suontarvi needs numpy and scipy: {_error}") from None

from . import _arrays
from ._library import MAX_DIGITS, MAX_ENTRIES, MAX_N, MAX_SYMMETRIC_ENTRIES, call as _call, lend, library
from ._refused import REFUSALS, Refused
from ._version import __version__

__all__ = [
    "Gap",
    "Largest",
    "MAX_ENTRIES",
    "MAX_N",
    "MAX_SYMMETRIC_ENTRIES",
    "Match",
    "REFUSALS",
    "Refused",
    "Scaling",
    "__version__",
    "check",
    "check_largest",
    "cost_graph",
    "from_sheet",
    "gap",
    "match",
    "match_matrix",
    "scale",
    "to_sheet",
    "whole_log",
]


@dataclass(eq=False)
class Match:
    """A match: which row each column has, and the duals that show how good it is.

    matched: the number of pairs. perm: the row of each column, or -1. u, v: the duals of rows and of columns. cmax: the
    largest log of each column of a matrix; 0 if the graph was given as costs. counts: the seven counts of the match; 0
    if it was read from a sheet.
    """

    matched: int
    perm: np.ndarray
    u: np.ndarray
    v: np.ndarray
    cmax: np.ndarray
    counts: np.ndarray = field(default_factory=lambda: np.zeros(7, np.uint64))

    @property
    def complete(self) -> bool:
        """Whether every column has a row."""
        return self.matched == len(self.perm)

    def __eq__(self, other: object) -> bool:
        """Whether both have the same numbers."""
        if not isinstance(other, Match):
            return NotImplemented
        names = ("perm", "u", "v", "cmax", "counts")
        same = all(np.array_equal(getattr(self, name), getattr(other, name)) for name in names)
        return self.matched == other.matched and same


@dataclass(frozen=True)
class Gap:
    """How far a match can be from the least total: at most `steps` steps of 2^-digits.

    steps, digits: whole numbers.
    """

    steps: int
    digits: int

    @property
    def bound(self) -> float:
        """The steps times 2^-digits, rounded up.

        >>> import suontarvi
        >>> suontarvi.Gap(3, 2).bound
        0.75
        """
        nearest, digits = float(self.steps), int(self.digits)
        above = nearest if int(nearest) >= self.steps else float(np.nextafter(nearest, np.inf))
        bound = math.ldexp(above, -digits)
        # a product below the normal numbers may have been rounded down
        return bound if math.ldexp(bound, digits) >= above else float(np.nextafter(bound, np.inf))


@dataclass(eq=False)
class Largest:
    """A largest matching, and the marks that show that it is largest.

    matched: the number of pairs. columns: whether each column is marked, since an alternating path leads to it from a
    column without a row. rows: whether each row is, since an entry of a marked column is in it. Every entry of a marked
    column is in a marked row, and there are `empty` more marked columns than marked rows.
    """

    matched: int
    columns: np.ndarray
    rows: np.ndarray

    @property
    def empty(self) -> int:
        """How many columns stay without a row in every matching, and as many rows without a column."""
        return len(self.columns) - self.matched

    @property
    def complete(self) -> bool:
        """Whether every column has a row; then nothing is marked."""
        return self.empty == 0


@dataclass(eq=False)
class Scaling:
    """A match, the factors that belong to it, and the matrix that they make.

    Entry (i, j) times rows[i] * columns[j] is that of `scaled`; `scaled[match.perm]` has the matched entries on its
    diagonal if the match is complete. Under the rule "whole" both factors are powers of two, and their exponents are
    given too: a power beyond the range of doubles is 0 or infinite, but `scaled` is still right.
    """

    rows: np.ndarray
    columns: np.ndarray
    scaled: sp.csc_matrix
    match: Match
    row_exponents: np.ndarray | None = None
    column_exponents: np.ndarray | None = None


def match(costs: Any) -> Match:
    """The match of a cost graph: as many pairs as any matching has and, for whole costs, of least total if complete.

    Stored zeros are costs. In an array every element is a cost, except infinity, which means no entry.

    >>> import numpy, suontarvi
    >>> found = suontarvi.match(numpy.array([[0, 0], [3, 5]]))
    >>> found.perm, found.u, found.v
    (array([1, 0]), array([0., 3.]), array([0., 0.]))
    """
    return _match(_arrays.costs_of(costs), None)


def cost_graph(matrix: Any, symmetric: bool = False, logs: str = "whole") -> tuple[sp.csc_matrix, np.ndarray]:
    """The cost graph of a matrix, and cmax: a cost is the largest log of the column minus the entry's.

    Logs are "whole", base-two in units of 1/65,536, or "natural". A symmetric matrix is read from its lower triangle.

    >>> import numpy, suontarvi
    >>> graph, cmax = suontarvi.cost_graph(numpy.array([[1.0, 4.0], [2.0, 4.0]]))
    >>> graph.toarray() / 65536, cmax / 65536
    (array([[1., 0.],
           [0., 0.]]), array([1., 2.]))
    """
    graph, cmax = _graph_of(matrix, symmetric, logs)
    return graph.to_scipy(), cmax


def match_matrix(matrix: Any, symmetric: bool = False, logs: str = "whole") -> Match:
    """The match of a matrix's cost graph, with its cmax: the product of the matched magnitudes is the largest.

    >>> import numpy, suontarvi
    >>> suontarvi.match_matrix(numpy.array([[1.0, 9.0], [2.0, 1.0]])).perm
    array([1, 0])
    """
    return _match(*_graph_of(matrix, symmetric, logs))


def check(costs: Any, found: Match) -> None:
    """Raises what is wrong with a match, whoever made it; if nothing is, it is complete and its duals show least total.

    Costs and duals must be whole.

    >>> import numpy, suontarvi
    >>> costs = numpy.array([[0, 0], [3, 5]])
    >>> found = suontarvi.match(costs)
    >>> suontarvi.check(costs, found)
    >>> found.u[1] = 4
    >>> suontarvi.check(costs, found)
    Traceback (most recent call last):
    ...
    suontarvi.Refused: refused with 31 (INFEASIBLE_DUALS): a dual is not whole or too large, or u + v is above a cost
    """
    graph = _arrays.costs_of(costs)
    _, perm, u, v, _ = _fields(found)
    _call("suontarvi_check_match", *graph.read, graph.values, perm, u, v)


def gap(costs: Any, found: Match, digits: int | None = None) -> Gap:
    """How far a complete match, whoever made it, can be from the least total, for any costs and any duals.

    Its total is at most that of every complete matching plus the gap: this is proved for exact numbers, the costs and
    duals as they are stored. The gap is in steps of 2^-digits; digits are at most 50, and by default the largest that
    are accepted: no cost and no dual may have more than 2^49 steps in size. So duals beyond 2^49 are refused with 31,
    although `check` takes them up to 2^50. A match that `check` also accepts has the gap 0.

    >>> import numpy, suontarvi
    >>> costs = numpy.array([[0.1, 0.3], [3.7, 5.2]])
    >>> found = suontarvi.match(costs)
    >>> suontarvi.gap(costs, found).bound < 1e-12
    True
    >>> found.perm = numpy.array([0, 1])
    >>> suontarvi.gap(costs, found, 10)
    Gap(steps=1336, digits=10)
    >>> round(suontarvi.gap(costs, found).bound, 9)
    1.3
    """
    graph = _arrays.costs_of(costs)
    _, perm, u, v, _ = _fields(found)
    if digits is None:
        digits = _most_digits(graph.values, u, v)
    elif not 0 <= _arrays.whole(digits, "digits") <= MAX_DIGITS:
        raise Refused(5, f"digits that are not within 0 to {MAX_DIGITS}")
    steps = np.zeros(1, np.uint64)
    _call("suontarvi_match_gap", graph.n, digits, graph.pointers, graph.rows, graph.values, perm, u, v, steps)
    return Gap(int(steps[0]), int(digits))


def check_largest(costs: Any, found: Match | np.ndarray) -> Largest:
    """Raises what is wrong with a matching, whoever made it; if nothing is, it is largest, and the marks show why.

    `found` is a match, or the row of each column, -1 if it has none; it need not be complete. The graph is that of
    `match`, whatever its costs: stored zeros are entries, and so is every element of an array except infinity. Every
    match that was found here is accepted. A row that is not below n or occurs twice, and a pair that is not an entry,
    are refused with 30, a matching that is not largest with 33.

    >>> import numpy, suontarvi
    >>> costs = numpy.array([[0, 0, 0], [numpy.inf, numpy.inf, 1], [numpy.inf, numpy.inf, 2]])
    >>> largest = suontarvi.check_largest(costs, suontarvi.match(costs))
    >>> largest.matched, largest.empty
    (2, 1)
    >>> numpy.flatnonzero(largest.columns), numpy.flatnonzero(largest.rows)
    (array([0, 1]), array([0]))
    >>> suontarvi.check_largest(costs, numpy.array([-1, -1, 0]))
    Traceback (most recent call last):
    ...
    suontarvi.Refused: refused with 33 (NOT_LARGEST): the matching is not largest: another one has more pairs
    """
    rows = _arrays.perm_rows(found.perm if isinstance(found, Match) else found)
    graph = _arrays.costs_of(costs)
    marks, matched = [np.zeros(graph.n, np.uint32) for _ in range(2)], np.zeros(1, np.uint32)
    _call("suontarvi_check_largest", *graph.read, rows, *marks, matched)
    return Largest(int(matched[0]), marks[0] != 0, marks[1] != 0)


def scale(matrix: Any, rule: str = "natural", symmetric: bool = False) -> Scaling:
    """Permutation, factors and the scaled matrix in one call.

    "natural" (or "identity"): factors by natural logarithms, which bring the matched entries to 1 and no other above 1,
    except for rounding and for factors clamped to e^709 or e^-709; unmatched rows and columns of a symmetric matrix get
    1. "flat", symmetric only: unmatched rows and columns after Duff and Pralet. "whole": powers of two, which round
    nothing. Only the lower triangle of a symmetric matrix is read; its rows and columns have the same factors, except
    under the rule "whole".

    >>> import numpy, suontarvi
    >>> scaling = suontarvi.scale(numpy.array([[1e-3, 4.0], [4.0, 0.0]]), symmetric=True)
    >>> scaling.match.perm
    array([1, 0])
    >>> numpy.round(scaling.scaled.toarray(), 12)
    array([[2.5e-04, 1.0e+00],
           [1.0e+00, 0.0e+00]])
    """
    rule = _arrays.word(rule, "the rule", ("natural", "identity", "flat", "whole"))
    symmetric = _arrays.truth(symmetric, "symmetric")
    if rule == "flat" and not symmetric:
        raise ValueError('the rule "flat" is for symmetric matrices')
    lower = _arrays.matrix_of(matrix, symmetric)
    full = _arrays.mirrored(lower) if symmetric else lower
    if rule == "whole":
        return _by_powers(full)
    logs = _natural_logs(lower)
    found = _match(*_cost_graph(lower, symmetric, logs))
    row_logs, column_logs = _log_factors(lower, logs, found, rule) if symmetric else _unsymmetric_factors(found)
    rows, columns = np.exp(row_logs), np.exp(column_logs)
    scaled = _product(rows[full.rows], full.values, columns[full.columns])
    return Scaling(rows, columns, full.to_scipy(scaled), found)


def to_sheet(found: Match) -> bytes:
    """The match as the bytes of a sheet file; equal matches have equal bytes.

    >>> import numpy, suontarvi
    >>> suontarvi.to_sheet(suontarvi.match(numpy.array([[0]]))).hex(" ")
    '01 00 00 00 01 00 00'
    """
    matched, perm, u, v, cmax = _fields(found)
    n = len(perm)
    if n > MAX_N:
        raise Refused(1)
    sheet, used = np.zeros(2 + 29 * n, np.uint8), np.zeros(1, np.uint32)
    _call("suontarvi_write_sheet", n, matched, perm, u, v, cmax, sheet, used)
    return sheet[: used[0]].tobytes()


def from_sheet(data: bytes | bytearray | memoryview, canonical: bool = False) -> Match:
    """The match of a sheet file; a canonical file is one that `to_sheet` could have written. The counts are 0.

    >>> import suontarvi
    >>> suontarvi.from_sheet(bytes([1, 0, 0, 0, 1, 0, 0])).perm
    array([0])
    """
    if not isinstance(data, (bytes, bytearray, memoryview)):
        raise TypeError(f"a sheet is bytes, not {type(data).__name__}")
    sheet = np.frombuffer(bytes(data), np.uint8)
    stated = int.from_bytes(sheet[:2].tobytes(), "little") if len(sheet) >= 2 else 0
    # above the limit nothing is lent: the call refuses n first
    n = stated if stated <= MAX_N else 0
    perm, answer = np.zeros(n, np.uint32), np.zeros(2, np.uint32)
    u, v, cmax = np.zeros(n), np.zeros(n), np.zeros(n)
    name = "read_canonical_sheet" if _arrays.truth(canonical, "canonical") else "read_sheet"
    _call(f"suontarvi_{name}", sheet, perm, u, v, cmax, answer)
    return Match(int(answer[1]), _arrays.signed(perm), u, v, cmax)


def whole_log(x: Any) -> int | np.ndarray:
    """The base-two logarithm of |x| in units of 1/65,536, by integers alone: of one number, or of each of an array.

    >>> import numpy, suontarvi
    >>> suontarvi.whole_log(-2.0)
    65536
    >>> suontarvi.whole_log(numpy.array([1.0, 10.0]))
    array([     0, 217705], dtype=int32)
    """
    if not isinstance(x, np.ndarray):
        if isinstance(x, (bool, np.bool_)) or not isinstance(x, (int, float, np.integer, np.floating)):
            raise TypeError(f"x is a number or an array of numbers, and not {type(x).__name__}")
        if isinstance(x, int) and abs(x) > 1 << 53:
            raise ValueError("x is an integer above 2^53 in size, where doubles round integers")
        x = np.asarray(x)
    numbers = _arrays.doubles(x, "x")
    logs = _whole_logs(numbers.ravel()).reshape(numbers.shape)
    return logs if numbers.ndim else int(logs)


def _whole_logs(numbers: np.ndarray) -> np.ndarray:
    if (numbers == 0).any():
        raise Refused(9, "the logarithm of a zero")
    call = library().suontarvi_whole_log
    logs, p, one = np.zeros(numbers.size, np.int32), (ctypes.c_int32 * 1)(), ctypes.c_size_t(1)
    for at, number in enumerate(numbers.tolist()):
        refused = call(ctypes.c_double(number), p, one)
        if refused:
            raise Refused(refused, "the logarithm of what is not finite")
        logs[at] = p[0]
    return logs


def _most_digits(*numbers: np.ndarray) -> int:
    """The largest digits at which none has more than 2^49 steps; 0 if there are none, and the call says why."""
    sizes = np.abs(np.concatenate(numbers))
    largest = np.max(sizes, initial=0.0, where=np.isfinite(sizes))
    return next((digits for digits in range(MAX_DIGITS, 0, -1) if largest <= 2.0 ** (49 - digits)), 0)


def _fields(found: Match):
    """What a match holds, whoever made it, as C has it."""
    if not isinstance(found, Match):
        raise TypeError(f"the match is {type(found).__name__}, and not a suontarvi.Match")
    matched = _arrays.whole(found.matched, "matched")
    if not 0 <= matched <= MAX_N:
        raise Refused(10)
    duals = [_arrays.vector(getattr(found, name), name) for name in ("u", "v", "cmax")]
    return (matched, _arrays.perm_rows(found.perm), *duals)


def _graph_of(matrix, symmetric, logs):
    logs = _arrays.word(logs, "logs", ("whole", "natural"))
    symmetric = _arrays.truth(symmetric, "symmetric")
    columns = _arrays.matrix_of(matrix, symmetric)
    return _cost_graph(columns, symmetric, None if logs == "whole" else _natural_logs(columns))


def _match(graph, cmax):
    n = graph.n
    perm, u, v = np.zeros(n, np.uint32), np.zeros(n), np.zeros(n)
    work, fwork, answer = np.zeros(12 * n + 1, np.uint32), np.zeros(2 * n), np.zeros(8, np.uint64)
    _call("suontarvi_match", *graph.read, graph.values, perm, u, v, work, fwork, answer)
    return Match(int(answer[0]), _arrays.signed(perm), u, v, np.zeros(n) if cmax is None else cmax, answer[1:])


def _cost_graph(matrix, symmetric, logs):
    n, entries = matrix.n, len(matrix.rows)
    room = entries * (2 if symmetric else 1)
    pointers, rows = np.zeros(n + 1, np.uint32), np.zeros(room, np.uint32)
    cost, cmax, work = np.zeros(room), np.zeros(n), np.zeros(2 * n + 2 + entries, np.uint32)
    kind = "symmetric" if symmetric else "general"
    name, read = (f"whole_{kind}_graph", []) if logs is None else (f"{kind}_graph", [logs])
    _call(f"suontarvi_{name}", *matrix.read, matrix.values, *read, pointers, rows, cost, cmax, work)
    kept = int(pointers[n])
    return _arrays.Columns(n, pointers, rows[:kept].copy(), cost[:kept].copy()), cmax


def _natural_logs(matrix):
    """Those of zeros do not count."""
    with np.errstate(divide="ignore"):
        return np.log(np.abs(matrix.values))


def _log_factors(lower, logs, found, rule):
    n = lower.n
    factors, work, unmatched = np.zeros(n), np.zeros(n, np.uint32), np.zeros(1, np.uint32)
    of_match = (_arrays.perm_rows(found.perm), found.u, found.v, found.cmax)
    of_matrix = (lower.pointers, lower.rows, lower.values, logs)
    number = 1 if rule == "flat" else 0
    _call("suontarvi_log_factors_by_rule", number, n, found.matched, *of_match, *of_matrix, factors, work, unmatched)
    return factors, factors


def _unsymmetric_factors(found):
    n = len(found.perm)
    rows, columns = np.zeros(n), np.zeros(n)
    _call("suontarvi_unsymmetric_factors", n, found.u, found.v, found.cmax, rows, columns)
    return rows, columns


def _product(rows, values, columns):
    """Products of three that are infinite or zero only if they are so as a whole: the largest meets the least first."""
    least, middle, largest = np.sort(np.stack([rows, np.abs(values), columns]), axis=0)
    with np.errstate(over="ignore", under="ignore"):
        first = least * largest
        # below the normal numbers bits are lost
        raised = least * 2.0**512 * largest * middle * 2.0**-512
        return np.copysign(np.where(first < np.finfo(float).tiny, raised, first * middle), values)


def _by_powers(matrix):
    found = _match(*_cost_graph(matrix, False, None))
    n = matrix.n
    row_exponents, column_exponents = np.zeros(n, np.int32), np.zeros(n, np.int32)
    _call("suontarvi_exponents", n, found.u, found.v, found.cmax, row_exponents, column_exponents)
    scaled = matrix.values.copy()
    _call("suontarvi_apply_exponents", *matrix.read, row_exponents, column_exponents, scaled)
    with np.errstate(over="ignore", under="ignore"):
        powers = np.ldexp(1.0, row_exponents), np.ldexp(1.0, column_exponents)
    return Scaling(*powers, matrix.to_scipy(scaled), found, row_exponents, column_exponents)
