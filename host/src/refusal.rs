//! The table of refusals.

use std::error::Error;
use std::fmt;

/// The table: number, case, name in the header (after `SUONTARVI_REFUSED_`), what is wrong.
macro_rules! refusals {
    ($($number:literal $case:ident $name:literal $sentence:literal)*) => {
        /// Why a call was refused. A refused call leaves every slice and every owned value as it was.
        ///
        /// ```
        /// use suontarvi::{CostGraph, Refusal};
        ///
        /// let refused = CostGraph::from_entries(1, [(0, 0, -1.0)]).unwrap_err();
        /// assert_eq!(refused, Refusal::CostRange);
        /// assert_eq!((refused.number(), refused.name()), (8, "COST_RANGE"));
        /// assert!(refused.to_string().starts_with("refused with 8 (COST_RANGE): a cost"));
        /// ```
        #[derive(Debug, Clone, Copy, PartialEq, Eq, Hash, PartialOrd, Ord)]
        #[non_exhaustive]
        #[repr(u32)]
        pub enum Refusal {
            $(#[doc = concat!(stringify!($number), ": ", $sentence, ".")] $case = $number,)*
        }

        impl Refusal {
            /// Every refusal, by rising number.
            pub const ALL: &[Refusal] = &[$(Refusal::$case),*];

            /// The name of the number in the header, after `SUONTARVI_REFUSED_`.
            pub const fn name(self) -> &'static str {
                match self { $(Refusal::$case => $name),* }
            }

            /// What is wrong, as a part of a sentence.
            pub const fn reason(self) -> &'static str {
                match self { $(Refusal::$case => $sentence),* }
            }
        }
    };
}

refusals! {
    1 TooManyColumns "TOO_MANY_COLUMNS" "n is above the limit of the call"
    2 TooManyEntries "TOO_MANY_ENTRIES" "there are more entries than the limit of the call"
    3 SliceLength "SLICE_LENGTH" "a slice has a length other than the call requires"
    4 ColumnPointers "COLUMN_POINTERS"
        "column pointer 0 is not 0, or the last is not the entry count, or one falls"
    5 IndexRange "INDEX_RANGE"
        "a row or a column is not below n, or there is no such choice, rule or number of digits"
    6 UpperTriangle "UPPER_TRIANGLE"
        "an entry of a symmetric matrix is above the diagonal: its row is less than its column"
    7 RowsNotRising "ROWS_NOT_RISING" "the rows of a column are not strictly rising"
    8 CostRange "COST_RANGE"
        "a cost or a log is outside its range or a NaN, or, in the check of a matching, a cost is not whole"
    9 ValueNotFinite "VALUE_NOT_FINITE" "a value is not finite, or the logarithm of a zero is asked for"
    10 MatchingRange "MATCHING_RANGE"
        "an entry of perm is neither NONE nor below n, or the matched count does not fit"
    11 NoRoot "NO_ROOT" "a NaN or a number below zero has no square root"
    12 ExternalChoice "EXTERNAL_CHOICE" "scaling by external factors is not offered"
    30 IncompleteMatching "INCOMPLETE_MATCHING"
        "a column has no row but must have one, or a row has two columns, or a pair is not an entry of the graph"
    31 InfeasibleDuals "INFEASIBLE_DUALS"
        "a dual is not whole or is above 2^50 in size, or u + v is above the cost of an entry, or, in the gap of a \
         matching, a dual is not finite or has more than 2^49 steps"
    32 LoosePair "LOOSE_PAIR" "u + v of a matched pair is below its cost"
    33 NotLargest "NOT_LARGEST" "the matching is not largest: another one has more pairs"
    40 SheetCut "SHEET_CUT" "a sheet file is cut short, or its n is above 4,096"
    41 SheetIndex "SHEET_INDEX" "a sheet file has an unknown bit, or a column or a row not below n"
    42 PatchTwice "PATCH_TWICE" "a sheet file gives a column twice"
    43 ExponentRange "EXPONENT_RANGE"
        "a factor is not whole, or an exponent is beyond 67,108,864 in magnitude"
    44 PatchOrder "PATCH_ORDER" "the columns of a canonical sheet file do not rise"
    45 NeedlessField "NEEDLESS_FIELD"
        "a canonical sheet file has an empty record, or a field equal to what its absence means"
    46 ValueNotNormal "VALUE_NOT_NORMAL"
        "a value other than zero is not a normal number before or after scaling"
}

impl Refusal {
    /// The number that the C call answers.
    ///
    /// ```
    /// use suontarvi::Refusal;
    ///
    /// let refusal = Refusal::CostRange;
    /// assert_eq!((refusal.number(), refusal.name()), (8, "COST_RANGE"));
    /// assert!(refusal.to_string().contains(refusal.reason()));
    /// ```
    pub const fn number(self) -> u32 {
        self as u32
    }

    /// The refusal with this number, if there is one; 0 is not a refusal.
    ///
    /// ```
    /// use suontarvi::Refusal;
    ///
    /// assert_eq!(Refusal::from_number(3), Some(Refusal::SliceLength));
    /// assert_eq!(Refusal::from_number(0), None);
    /// ```
    pub fn from_number(number: u32) -> Option<Refusal> {
        Refusal::ALL.iter().copied().find(|refusal| refusal.number() == number)
    }

    /// The answer of a C call.
    pub(crate) fn answered(number: u32) -> Result<(), Refusal> {
        match (number, Refusal::from_number(number)) {
            (0, _) => Ok(()),
            (_, Some(refusal)) => Err(refusal),
            _ => {
                panic!("libsuontarvi.a answered {number}: it is of another version than this crate")
            }
        }
    }
}

impl From<Refusal> for u32 {
    fn from(refusal: Refusal) -> u32 {
        refusal.number()
    }
}

impl fmt::Display for Refusal {
    fn fmt(&self, to: &mut fmt::Formatter) -> fmt::Result {
        write!(to, "refused with {} ({}): {}", self.number(), self.name(), self.reason())
    }
}

impl Error for Refusal {}
