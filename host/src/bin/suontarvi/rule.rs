//! The rules of match and scaling.

use std::ffi::OsStr;

use crate::fault::Fault;
use crate::shown;

/// Which logarithms are matched, and what unmatched indices of a symmetric matrix get.
#[derive(Debug, Clone, Copy, PartialEq, Eq)]
pub enum Rule {
    /// Natural logarithms; unmatched indices keep the factor 1.
    Natural,
    /// Natural logarithms; unmatched indices after Duff and Pralet. Symmetric matrices only.
    Flat,
    /// Base-two logarithms in whole units; the factors are powers of two.
    Whole,
}

/// The words of the rules, as the usage has them.
pub const WORDS: &str = "natural|flat|whole";

impl Rule {
    pub fn name(self) -> &'static str {
        match self {
            Rule::Natural => "natural",
            Rule::Flat => "flat",
            Rule::Whole => "whole",
        }
    }

    /// The rule of a word; `identity` is a synonym of `natural`.
    pub fn read(word: &OsStr) -> Result<Rule, Fault> {
        match word.to_str() {
            Some("natural" | "identity") => Ok(Rule::Natural),
            Some("flat") => Ok(Rule::Flat),
            Some("whole") => Ok(Rule::Whole),
            _ => {
                let word = shown::word(&shown::name(word));
                Err(Fault::misuse(format!("the rule is natural, flat or whole, and not {word}")))
            }
        }
    }
}
