//! Files that SPECIFICATION accepts, of random graphs and of all kinds, and files at the limits.

use super::bytes::fill;
use super::damage::LARGEST;
use super::file::{pick, File, Line, Role};
use super::reader::{Kind, DIGIT_LIMIT, INPUT_LIMIT, KINDS, SIZE_LIMIT, TIE_LIMIT, VALUE_LIMIT};
use super::words::{digits, negative, zeros};
use crate::matching::graphs;
use crate::range::last_whole_cost;
use crate::sparse::inputs::Matrix;
use oracle::random::Random;
use std::collections::BTreeSet;

/// A file of n up to 12, now and then of the dense rule's size.
pub fn random(random: &mut Random) -> File {
    let n = match random.below(20) {
        0 => 50 + random.below(15),
        1 => random.below(65),
        _ => random.below(13),
    };
    let kind = pick(random, &KINDS);
    let graph = graphs::sized(n, random);
    let mut pairs = pairs(kind, &graph);
    if random.chance(500) {
        shuffle(&mut pairs, random);
    }
    pairs.truncate(TIE_LIMIT as usize);
    file(kind, n as u64, &pairs, random)
}

/// Files at each limit and one past it.
pub fn at_limits(random: &mut Random) -> Vec<File> {
    let (n, count) = (SIZE_LIMIT, TIE_LIMIT);
    let mut files = Vec::new();
    for kind in KINDS {
        // the least n with more than L pairs
        let dense = if kind == Kind::Symmetric { 32 } else { 23 };
        let sizes = [
            (n, count),
            (n, count + 1),
            (n + 1, count),
            (n + 1, count + 1),
            (dense, count),
            (dense, count + 1),
            (n, 0),
            (n + 1, 0),
            (1, 0),
            (1, 1),
            (0, 0),
        ];
        files.extend(sizes.map(|(n, count)| full(kind, n, count, random)));
    }
    files
}

/// The largest sheet in as many bytes as are allowed.
pub fn largest(random: &mut Random) -> Vec<u8> {
    let mut file = full(pick(random, &KINDS), SIZE_LIMIT, TIE_LIMIT, random);
    file.lines.retain(|line| line.role != Role::Blank);
    for line in &mut file.lines {
        if line.role == Role::Entry {
            for word in &mut line.words {
                zeros(word, DIGIT_LIMIT);
            }
        }
    }
    let mut bytes = file.bytes(random);
    fill(&mut bytes, INPUT_LIMIT, random);
    bytes
}

/// As many entries, at random places of n; those of a symmetric file often off the diagonal, so that it has twice as
/// many ties.
fn full(kind: Kind, n: u64, count: u64, random: &mut Random) -> File {
    let pairs = (1..=n).flat_map(|row| (1..=n).map(move |column| [row, column]));
    let stored = |[row, column]: &[u64; 2]| kind != Kind::Symmetric || row >= column;
    let mut pairs: Vec<[u64; 2]> = pairs.filter(stored).collect();
    shuffle(&mut pairs, random);
    if random.chance(500) {
        pairs.sort_by_key(|[row, column]| row == column);
    }
    pairs.truncate(count as usize);
    file(kind, n, &pairs, random)
}

/// Row and column, from 1, of the graph's entries; for a symmetric file turned below the diagonal.
fn pairs(kind: Kind, graph: &Matrix) -> Vec<[u64; 2]> {
    let mut pairs = Vec::new();
    for (column, ends) in (1..).zip(graph.col_ptr.windows(2)) {
        for &row in &graph.rows[ends[0] as usize..ends[1] as usize] {
            pairs.push([u64::from(row) + 1, column]);
        }
    }
    if kind == Kind::Symmetric {
        let turned = pairs.iter().map(|&[i, j]| [i.max(j), i.min(j)]);
        let different: BTreeSet<[u64; 2]> = turned.collect();
        pairs = different.into_iter().collect();
    }
    pairs
}

/// The largest cost in a file of size n and its neighbours, and costs whose products leave 64 bits: of these the least
/// for n, and one that is 0 in 64 bits for n = 64.
pub fn around_last_cost(n: u64) -> [u64; 9] {
    let last = last_whole_cost(n as u32);
    let wrapping = (1u128 << 64).div_ceil(n.max(1).into());
    let wrapping = u64::try_from(wrapping).unwrap_or(LARGEST).min(LARGEST);
    [
        last - 1,
        last,
        last + 1,
        last + 2,
        1 << 48,
        1 << 53,
        1 << 58,
        wrapping,
        LARGEST,
    ]
}

/// The largest size of a symmetric value and its neighbours.
pub const AROUND_LAST_VALUE: [u64; 7] = [
    VALUE_LIMIT - 2,
    VALUE_LIMIT - 1,
    VALUE_LIMIT,
    VALUE_LIMIT + 1,
    1 << 54,
    1 << 58,
    LARGEST,
];

/// For each size a file with such a cost in one entry.
pub fn around_last_costs(random: &mut Random) -> Vec<File> {
    let mut files = Vec::new();
    for n in 1..=SIZE_LIMIT {
        for cost in around_last_cost(n) {
            let mut file = full(Kind::General, n, (n * n).min(2 * n), random);
            let at = pick(random, &file.places(Role::Entry));
            file.lines[at].words[2] = digits(cost);
            files.push(file);
        }
    }
    files
}

/// Files with such a value in one entry, with and without a minus, on either side of the diagonal.
pub fn around_last_values(random: &mut Random) -> Vec<File> {
    let mut files = Vec::new();
    for n in [1, 2, 3, 8, SIZE_LIMIT] {
        for value in AROUND_LAST_VALUE {
            for turned in [false, true] {
                let mut file = full(Kind::Symmetric, n, (n * (n + 1) / 2).min(TIE_LIMIT), random);
                let at = pick(random, &file.places(Role::Entry));
                let words = &mut file.lines[at].words;
                words[2] = digits(value);
                if random.chance(500) {
                    negative(&mut words[2]);
                }
                if turned {
                    words.swap(0, 1);
                }
                files.push(file);
            }
        }
    }
    files
}

/// Whole costs of one mood, in a file of size n.
fn costs(random: &mut Random, n: u64, count: usize) -> Vec<u64> {
    let last = last_whole_cost(n as u32);
    let mood = random.below(5);
    let cost = |random: &mut Random| match mood {
        0 => random.below(4) as u64,
        1 => random.below(100) as u64,
        2 => random.bits() % (last + 1),
        3 => 7,
        _ => pick(random, &[0, 1, 1 << 36, last]),
    };
    (0..count).map(|_| cost(random)).collect()
}

/// Sizes of symmetric values, of one mood: zeros among them, powers of two, all lengths, equal ones.
fn sizes(random: &mut Random, count: usize) -> Vec<u64> {
    let mood = random.below(6);
    let size = |random: &mut Random| match mood {
        0 => random.below(4) as u64,
        1 => 1 << random.below(53),
        2 => random.bits() % VALUE_LIMIT,
        3 => (random.bits() % VALUE_LIMIT) >> random.below(53),
        4 => 7,
        _ => pick(random, &[0, 1, 3, 14_917, 1 << 52, VALUE_LIMIT - 1]),
    };
    (0..count).map(|_| size(random)).collect()
}

/// The entries in their order, under a banner in any letter case, with comments above the size and blank lines.
fn file(kind: Kind, n: u64, pairs: &[[u64; 2]], random: &mut Random) -> File {
    let mut lines = vec![Line::new(Role::Banner, banner(kind, random))];
    for _ in 0..pick(random, &[0, 0, 1, 3]) {
        lines.push(Line::comment(random));
    }
    let padded = pick(random, &[0, 0, 300]);
    let size = [n, n, pairs.len() as u64];
    lines.push(line(Role::Size, &size, padded, random));
    lines.extend(entries(kind, n, pairs, padded, random));
    for _ in 0..pick(random, &[0, 0, 1, 4]) {
        lines.insert(1 + random.below(lines.len()), Line::blank());
    }
    File { kind, n, lines }
}

/// Entry lines; some values of a symmetric file have a minus.
fn entries(
    kind: Kind,
    n: u64,
    pairs: &[[u64; 2]],
    padded: usize,
    random: &mut Random,
) -> Vec<Line> {
    let weights = match kind {
        Kind::General => costs(random, n, pairs.len()),
        Kind::Symmetric => sizes(random, pairs.len()),
        Kind::Pattern => vec![0; pairs.len()],
    };
    let below = pick(random, &[0, 500, 1000]);
    let mut lines = Vec::new();
    for (&[row, column], weight) in pairs.iter().zip(weights) {
        let mut entry = line(Role::Entry, &[row, column, weight], padded, random);
        match kind {
            Kind::General => {}
            Kind::Symmetric if random.chance(below) => negative(&mut entry.words[2]),
            Kind::Symmetric => {}
            Kind::Pattern => drop(entry.words.pop()),
        }
        lines.push(entry);
    }
    lines
}

fn banner(kind: Kind, random: &mut Random) -> Vec<Vec<u8>> {
    let raised = pick(random, &[0, 500, 1000]);
    let word = |word: &str| match random.chance(300) {
        true => word.into(),
        false => recase(word, raised, random),
    };
    kind.banner().map(word).into()
}

/// Each letter is a capital with that chance.
fn recase(word: &str, per_mille: usize, random: &mut Random) -> Vec<u8> {
    let letter = |byte: u8| match random.chance(per_mille) {
        true => byte.to_ascii_uppercase(),
        false => byte.to_ascii_lowercase(),
    };
    word.bytes().map(letter).collect()
}

/// A line of numbers, some of them with leading zeros.
fn line(role: Role, numbers: &[u64; 3], padded: usize, random: &mut Random) -> Line {
    let mut words = numbers.map(digits);
    for word in &mut words {
        if random.chance(padded) {
            zeros(word, 1 + random.below(DIGIT_LIMIT));
        }
    }
    Line::new(role, words.into())
}

fn shuffle<T>(items: &mut [T], random: &mut Random) {
    for at in 1..items.len() {
        items.swap(at, random.below(at + 1));
    }
}
