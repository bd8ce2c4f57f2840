//! The original's errors as the numbers of SPECIFICATION 3.4.

use crate::error::RslabError;

/// Words that tell the original's errors apart, the first that occurs deciding.
/// A complaint about a pointer's value comes last: complaints about the length
/// of the pointers name them too.
const WORDS: [(&str, u32); 5] = [
    ("length", 3),
    ("out of bounds", 5),
    ("upper-triangle", 6),
    ("row indices", 7),
    ("col_ptr", 4),
];

/// The slip's number for the original's error.
pub(crate) fn number(error: RslabError) -> u32 {
    let text = error.to_string();
    let known = WORDS.iter().find(|(word, _)| text.contains(word));
    known
        .unwrap_or_else(|| panic!("no number is known for the original's error: {text}"))
        .1
}
