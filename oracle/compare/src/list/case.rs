//! One case of the list, and its text.

use super::calls::SCALING;
use crate::differs::Bits;

/// The call by its number, its numbers, the lent slices in the groups in which they are read, the answer, and the
/// slices lent as `mut` as they are left, those of the last group first.
#[derive(Clone)]
pub struct Case {
    pub call: u64,
    pub numbers: Vec<u64>,
    pub lent: Vec<Vec<Vec<u64>>>,
    pub answer: Vec<u64>,
    pub left: Vec<Vec<u64>>,
}

impl Case {
    /// The call and its numbers; of each group the lengths and what the slices hold; the answer; what they hold then.
    pub fn text(&self) -> String {
        let mut lines = Vec::new();
        let mut first = [vec![self.call], self.numbers.clone()].concat();
        for group in &self.lent {
            first.extend(group.iter().map(|slice| slice.len() as u64));
            lines.push(plain(&first));
            lines.extend(group.iter().map(|slice| runs(slice)));
            first.clear();
        }
        lines.push(plain(&first));
        lines.push(plain(&self.answer));
        lines.extend(self.left.iter().map(|slice| runs(slice)));
        lines.retain(|line| !line.is_empty());
        lines.join("\n") + "\n"
    }

    /// The chooser's choice.
    pub fn choice(&self) -> Option<u64> {
        (self.call == SCALING).then(|| self.numbers[0])
    }

    /// The longest of the slices.
    pub fn longest(&self) -> usize {
        let slices = self.lent.iter().flatten();
        slices.map(Vec::len).max().unwrap_or(0)
    }
}

/// The bits of each place.
pub fn words<T: Bits>(slice: &[T]) -> Vec<u64> {
    slice.iter().map(|place| place.bits()).collect()
}

/// The bits of each double, of every NaN the same.
pub fn doubles(slice: &[f64]) -> Vec<u64> {
    slice.iter().map(|&x| double(x)).collect()
}

pub fn double(x: f64) -> u64 {
    match x.is_nan() {
        true => 0x7FF8_0000_0000_0000,
        false => x.to_bits(),
    }
}

fn plain(words: &[u64]) -> String {
    let hex: Vec<String> = words.iter().map(|word| format!("{word:x}")).collect();
    hex.join(" ")
}

/// The words, those with one distance as a run where that is shorter.
fn runs(words: &[u64]) -> String {
    let mut parts: Vec<String> = Vec::new();
    let mut rest = words;
    while let Some(&first) = rest.first() {
        let step = rest.get(1).map_or(0, |second| second.wrapping_sub(first));
        let pairs = rest.windows(2);
        let count = 1 + pairs
            .take_while(|pair| pair[1].wrapping_sub(pair[0]) == step)
            .count();
        let run = match step {
            0 => format!("{count:x}*{first:x}"),
            _ => format!("{count:x}*{first:x}+{step:x}"),
        };
        let spelt = plain(&rest[..count.min(20)]);
        let taken = match run.len() < spelt.len() {
            true => count,
            false => 1,
        };
        parts.push(if taken == 1 { plain(&[first]) } else { run });
        rest = &rest[taken..];
    }
    parts.join(" ")
}
