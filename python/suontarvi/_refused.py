"""The table of refusals."""

from __future__ import annotations

# number: name in the header, and what is wrong
REFUSALS: dict[int, tuple[str, str]] = {
    1: ("TOO_MANY_COLUMNS", "n is above 4,096"),
    2: ("TOO_MANY_ENTRIES", "more entries than the limit"),
    3: ("SLICE_LENGTH", "an array has the wrong length"),
    4: ("COLUMN_POINTERS", "the pointers do not rise from 0 to the entry count"),
    5: ("INDEX_RANGE", "an index at or above n, or no such rule or digits"),
    6: ("UPPER_TRIANGLE", "an entry above the diagonal of a symmetric matrix"),
    7: ("ROWS_NOT_RISING", "the rows of a column do not rise"),
    8: ("COST_RANGE", "a cost or a log is outside its range, or a cost that must be whole is not"),
    9: ("VALUE_NOT_FINITE", "a value that is not finite, or the logarithm of a zero"),
    10: ("MATCHING_RANGE", "an entry of perm is neither -1 nor below n, or the matched count does not fit"),
    11: ("NO_ROOT", "the square root of a NaN or of a number below zero"),
    12: ("EXTERNAL_CHOICE", "external factors"),
    30: ("INCOMPLETE_MATCHING", "the pairs are not a matching of the graph, or not complete where they must be"),
    31: ("INFEASIBLE_DUALS", "a dual is not whole or too large, or u + v is above a cost"),
    32: ("LOOSE_PAIR", "u + v of a pair is below its cost"),
    33: ("NOT_LARGEST", "the matching is not largest: another one has more pairs"),
    40: ("SHEET_CUT", "the sheet is cut short, or its n is above 4,096"),
    41: ("SHEET_INDEX", "the sheet has an unknown bit, or a column or a row at or above n"),
    42: ("PATCH_TWICE", "the sheet gives a column twice"),
    43: ("EXPONENT_RANGE", "a factor that is not whole, or an exponent out of range"),
    44: ("PATCH_ORDER", "the sheet is not canonical: its columns do not rise"),
    45: ("NEEDLESS_FIELD", "the sheet is not canonical: a needless record or field"),
    46: ("VALUE_NOT_NORMAL", "a value that is not a normal number before or after scaling"),
}


class Refused(ValueError):
    """A refusal of the library: its number, its name in the header, and what it means.

    >>> import numpy, suontarvi
    >>> try:
    ...     suontarvi.match(numpy.array([[-1.0]]))
    ... except suontarvi.Refused as refusal:
    ...     print(refusal.number, refusal.name)
    8 COST_RANGE
    """

    def __init__(self, number: int, what: str | None = None) -> None:
        self.number, self._what = int(number), what
        unknown = ("UNKNOWN", "the version of the library is not that of this module")
        self.name, reason = REFUSALS.get(self.number, unknown)
        super().__init__(f"refused with {self.number} ({self.name}): {what or reason}")

    def __reduce__(self):
        return Refused, (self.number, self._what)


# the name by which it is known
Refused.__module__ = "suontarvi"
