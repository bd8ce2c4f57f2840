//! Words of a tie file: numbers, and words that are not numbers.

use super::file::pick;
use super::reader::DIGIT_LIMIT;
use oracle::random::Random;

/// Bytes that are no digits; some are blanks elsewhere, or a digit but for one bit.
const ODD_BYTES: &[u8] = b"\0\x05\x0b\x0c\x10\x1a\x1c\x1f\x7f\x80\x85\xa0\xb1\xff+-.,/:%aeE_ \t\r";

const ODD_WORDS: &[&[u8]] = &[
    b"+1",
    b"-1",
    b"-0",
    b"1.",
    b".1",
    b"1.0",
    b"1e1",
    b"0x1",
    b"1_0",
    b"1,",
    b"%1",
    b"one",
    b"nan",
    b"\0",
    b"\x0b",
    b"\x0c",
    b"\xff",
    b"\xd9\xa1", // a one of another script
    b"\xc2\xb9", // a raised one
    b"0000000000000000001",
    b"9999999999999999999",
    b"18446744073709551617", // 2^64 + 1
    b"000000000000000000000000000000000000000001",
];

/// Words with a sign; some are values of a symmetric file.
const SIGNED_WORDS: &[&[u8]] = &[
    b"-0",
    b"-000000000000000000",
    b"-0000000000000000000",
    b"-999999999999999999",
    b"-",
    b"--",
    b"--5",
    b"+5",
    b"+-5",
    b"-+5",
    b"5-",
    b"-5-",
    b"- 5",
    b"-\xe2\x88\x925", // a minus of another script behind one
    b"\xe2\x88\x925",
    b"-x",
    b"-5.0",
];

pub fn digits(number: u64) -> Vec<u8> {
    number.to_string().into()
}

/// A minus in front.
pub fn negative(word: &mut Vec<u8>) {
    word.insert(0, b'-');
}

/// Leading zeros up to as many digits, behind a minus.
pub fn zeros(word: &mut Vec<u8>, count: usize) {
    let at = usize::from(word.starts_with(b"-"));
    let missing = count.saturating_sub(word.len() - at);
    word.splice(at..at, vec![b'0'; missing]);
}

/// One byte is added or becomes another.
pub fn odd_byte(word: &mut Vec<u8>, random: &mut Random) {
    let byte = pick(random, ODD_BYTES);
    let at = random.below(word.len() + 1);
    let replaced = usize::from(at < word.len() && random.chance(500));
    word.splice(at..at + replaced, [byte]);
}

/// One word is changed, missing or too much.
pub fn misshape(words: &mut Vec<Vec<u8>>, random: &mut Random) {
    if words.is_empty() {
        return;
    }
    let at = random.below(words.len());
    match random.below(9) {
        0..=1 => odd_byte(&mut words[at], random),
        2..=3 => words[at] = pick(random, ODD_WORDS).into(),
        4 => zeros(&mut words[at], DIGIT_LIMIT + random.below(2)),
        5 => drop(words.remove(at)),
        6 => words[at] = pick(random, SIGNED_WORDS).into(),
        7 => negative(&mut words[at]),
        _ => words.insert(at, digits(random.below(3) as u64)),
    }
}
