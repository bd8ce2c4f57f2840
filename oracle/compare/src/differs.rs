//! Comparison bit by bit; `Err` says what differs.

use suontarvi::Refusal;

pub trait Bits: Copy {
    fn bits(self) -> u64;
}

impl Bits for u8 {
    fn bits(self) -> u64 {
        self.into()
    }
}

impl Bits for u32 {
    fn bits(self) -> u64 {
        self.into()
    }
}

impl Bits for i32 {
    fn bits(self) -> u64 {
        (self as u32).into()
    }
}

impl Bits for u64 {
    fn bits(self) -> u64 {
        self
    }
}

impl Bits for f64 {
    fn bits(self) -> u64 {
        self.to_bits()
    }
}

/// The two slices are the same in every bit.
pub fn same<T: Bits>(name: &str, got: &[T], expected: &[T]) -> Result<(), String> {
    if got.len() != expected.len() {
        return Err(format!(
            "{name}: {}, not {} places",
            got.len(),
            expected.len()
        ));
    }
    let differ = |at: &usize| got[*at].bits() != expected[*at].bits();
    match (0..got.len()).find(differ) {
        None => Ok(()),
        Some(at) => Err(format!(
            "{name}[{at}] is {:#x}, not {:#x}",
            got[at].bits(),
            expected[at].bits()
        )),
    }
}

/// Every place is zero in every bit.
pub fn zero<T: Bits>(name: &str, got: &[T]) -> Result<(), String> {
    match got.iter().position(|place| place.bits() != 0) {
        None => Ok(()),
        Some(at) => Err(format!("{name}[{at}] is {:#x}, not 0", got[at].bits())),
    }
}

/// The answer is the expected number, 0 for accepted.
pub fn answer<T>(got: &Result<T, Refusal>, expected: u32) -> Result<(), String> {
    let number = match got {
        Ok(_) => 0,
        Err(refusal) => refusal.number(),
    };
    if number == expected {
        Ok(())
    } else {
        Err(format!("answered {number}, not {expected}"))
    }
}
