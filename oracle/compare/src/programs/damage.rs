//! Changes of a file's lines, each at one rule; now and then one leaves the file whole.

use super::file::{pick, File, Line, Role};
use super::reader::{Kind, KINDS, LINE_LIMIT, SIZE_LIMIT, TIE_LIMIT};
use super::sheets::{around_last_cost, AROUND_LAST_VALUE};
use super::words::{digits, misshape, negative, odd_byte};
use oracle::random::Random;

/// The largest number of eighteen digits.
pub const LARGEST: u64 = 999_999_999_999_999_999;

/// A number plus this is the same in 32 bits.
const WIDE: u64 = 1 << 32;

const OTHER_BANNERS: &[&[u8]] = &[
    b"%MatrixMarket",
    b"%%%MatrixMarket",
    b"%%",
    b"MatrixMarket",
    b"%%MatrixMarkets",
    b"%%MatrixMarke",
    b"vector",
    b"array",
    b"real",
    b"pattern",
    b"complex",
    b"integer",
    b"general",
    b"symmetric",
    b"skew-symmetric",
    b"hermitian",
    b"1",
];

pub fn damage(file: &mut File, random: &mut Random) {
    match random.below(20) {
        0..=1 => banner(file, random),
        2..=5 => size(file, random),
        6..=9 => entry(file, random),
        10..=13 => entries(file, random),
        14..=16 => lines(file, random),
        _ => length(file, random),
    }
}

fn banner(file: &mut File, random: &mut Random) {
    let Some(Line { words, .. }) = file.line(Role::Banner) else {
        return;
    };
    let at = random.below(5);
    if at >= words.len() {
        return;
    }
    match random.below(10) {
        0 => words[at] = pick(random, OTHER_BANNERS).into(),
        1 => odd_byte(&mut words[at], random),
        2 => drop(words.remove(at)),
        3 => words.insert(at, pick(random, OTHER_BANNERS).into()),
        4 => words[at..].rotate_left(1),
        5 => words[0].insert(0, pick(random, b" \t\r\n\xef%")),
        6 => {
            let word = words.remove(at);
            if let Some(first) = words.first_mut() {
                first.extend(&word);
            }
        }
        7..=8 => {
            let other = pick(random, &KINDS).banner();
            *words = other.map(|word| word.into()).into();
        }
        _ => {
            // a letter only changes its case
            let place = random.below(words[at].len().max(1));
            if let Some(byte) = words[at].get_mut(place) {
                *byte ^= 0x20;
            }
        }
    }
}

fn size(file: &mut File, random: &mut Random) {
    let n = file.n;
    let Some(Line { words, .. }) = file.line(Role::Size) else {
        return;
    };
    let near = [0, n + 1, n.saturating_sub(1), n + WIDE, LARGEST];
    let limit = [63, SIZE_LIMIT, SIZE_LIMIT + 1, SIZE_LIMIT + WIDE, 128];
    let count = [0, 1, TIE_LIMIT, TIE_LIMIT + 1, TIE_LIMIT + WIDE, LARGEST];
    match random.below(8) {
        0..=2 => misshape(words, random),
        3 => put(words, random.below(2), pick(random, &near)),
        4 => put(words, random.below(2), pick(random, &limit)),
        5 => put(words, 2, pick(random, &count)),
        both => {
            let number = pick(random, if both == 6 { &near } else { &limit });
            put(words, 0, number);
            put(words, 1, number);
        }
    }
}

/// One entry line.
fn entry(file: &mut File, random: &mut Random) {
    let places = file.places(Role::Entry);
    if places.is_empty() {
        return;
    }
    let (kind, n) = (file.kind, file.n);
    let words = &mut file.lines[pick(random, &places)].words;
    let index = [0, n, n + 1, n + WIDE, 1 + WIDE, LARGEST];
    match random.below(8) {
        0..=1 => misshape(words, random),
        2..=3 => put(words, random.below(2), pick(random, &index)),
        4..=6 if words.len() > 1 => {
            // above the diagonal, if it was below; sometimes with a fault beside
            words.swap(0, 1);
            if random.chance(300) {
                misshape(words, random);
            }
        }
        _ => weight(kind, n, words, random),
    }
}

/// A weight at the end of its range.
fn weight(kind: Kind, n: u64, words: &mut Vec<Vec<u8>>, random: &mut Random) {
    match kind {
        Kind::General => put(words, 2, pick(random, &around_last_cost(n))),
        Kind::Symmetric => put(words, 2, pick(random, &AROUND_LAST_VALUE)),
        Kind::Pattern => words.push(digits(random.below(2) as u64)),
    }
    if let (true, Some(word)) = (random.chance(400), words.get_mut(2)) {
        negative(word);
    }
}

/// Entry lines are missing, too many or repeated; now and then the size line counts them again.
fn entries(file: &mut File, random: &mut Random) {
    let places = file.places(Role::Entry);
    if places.is_empty() {
        let words = if file.kind == Kind::Pattern { 2 } else { 3 };
        return file
            .lines
            .push(Line::new(Role::Entry, vec![digits(1); words]));
    }
    let (one, other) = (pick(random, &places), pick(random, &places));
    let mut copy = file.lines[one].clone();
    if random.chance(500) {
        put(&mut copy.words, 2, random.below(9) as u64);
    }
    match random.below(6) {
        0 => drop(file.lines.remove(one)),
        1 => file.lines.retain(|line| line.role != Role::Entry),
        2 => file.lines.insert(other, copy),
        3 => file.lines.push(copy),
        4 => file.lines[other] = copy,
        _ => file.lines.push(Line::new(Role::Entry, vec![b"x".into()])),
    }
    let count = file.places(Role::Entry).len() as u64;
    if let (true, Some(size)) = (random.chance(500), file.line(Role::Size)) {
        put(&mut size.words, 2, count);
    }
}

/// A line in another place, twice or not at all; a comment or a blank line anywhere.
fn lines(file: &mut File, random: &mut Random) {
    let lines = &mut file.lines;
    let at = random.below(lines.len() + 1);
    match random.below(7) {
        0..=1 => lines.insert(at, Line::comment(random)),
        2 => lines.insert(at, Line::blank()),
        3 => {
            let mut comment = Line::comment(random);
            comment.words[0].insert(0, pick(random, b" \t\r"));
            lines.insert(at, comment);
        }
        _ if at == lines.len() => {}
        4 => drop(lines.remove(at)),
        5 => lines.insert(at, lines[at].clone()),
        _ => lines.swap(at, at.saturating_sub(1)),
    }
}

/// A line of the longest length, or a longer one; it may be a new one at the end.
fn length(file: &mut File, random: &mut Random) {
    match random.below(8) {
        0 => file.lines.push(Line::blank()),
        1 => file.lines.push(Line::comment(random)),
        _ => {}
    }
    let last = file.lines.len().saturating_sub(1);
    let (top, any) = (random.below(last.min(4) + 1), random.below(last + 1));
    let at = pick(random, &[last, top, any]);
    let least = pick(random, &[LINE_LIMIT, LINE_LIMIT + 1, LINE_LIMIT + 1, 2000]);
    if let Some(line) = file.lines.get_mut(at) {
        line.least = least;
    }
}

/// A word becomes a number, if it is there.
fn put(words: &mut [Vec<u8>], at: usize, number: u64) {
    if let Some(word) = words.get_mut(at) {
        *word = digits(number);
    }
}
