//! Sheet files. The original has none: the writer and both readers are compared with the rules restated in `expected`,
//! over good files and each of their cuts, records in every order, and damage at every rule.

mod expected;
mod inputs;

use crate::differs::{answer, same};
use crate::tally::Tally;
use expected::{file, read, records, written, Match, Record};
use inputs::Ask;
use oracle::random::Random;
use suontarvi::{raw, Matching};

/// The three calls.
struct Tallies {
    write: Tally,
    read: Tally,
    canonical: Tally,
}

/// Runs `count` matches through the writer and their files through both readers, good and damaged; whether all was
/// alike.
pub fn run(count: u64, random: &mut Random) -> bool {
    let mut tallies = Tallies {
        write: Tally::new("write_sheet"),
        read: Tally::new("read_sheet"),
        canonical: Tally::new("read_canonical_sheet"),
    };
    for round in 0..count {
        let n = inputs::columns(random);
        let of = inputs::random_match(n, random);
        write(&of, &Ask::new(&of), &mut tallies.write);
        damaged_write(&of, random, &mut tallies.write);
        read_both(&file(n, &records(&of)), n, random, &mut tallies);
        damaged_read(&of, random, &mut tallies);
        if round % 100 == 0 && n < 9 {
            every_cut(&of, random, &mut tallies);
            every_order(&of, random, &mut tallies);
        }
    }
    let written = tallies.write.end();
    let read = tallies.read.end();
    let canonical = tallies.canonical.end();
    written && read && canonical
}

fn damaged_write(of: &Match, random: &mut Random, tally: &mut Tally) {
    let (mut of, mut ask) = (of.clone(), Ask::new(of));
    for _ in 0..=random.below(2) {
        ask.damage(&mut of, random);
    }
    write(&of, &ask, tally);
}

/// Damage in records, in bytes, or in a length.
fn damaged_read(of: &Match, random: &mut Random, tallies: &mut Tallies) {
    let n = of.perm.len();
    let mut all = records(of);
    for _ in 0..=random.below(3) {
        inputs::damage_records(&mut all, n, random);
    }
    let mut bytes = file(n, &all);
    if random.chance(250) {
        inputs::damage_bytes(&mut bytes, random);
    }
    read_both(&bytes, n, random, tallies);
}

fn every_cut(of: &Match, random: &mut Random, tallies: &mut Tallies) {
    let bytes = file(of.perm.len(), &records(of));
    for end in 0..bytes.len() {
        read_both(&bytes[..end], of.perm.len(), random, tallies);
    }
}

/// All orders of the first four records, the others behind them.
fn every_order(of: &Match, random: &mut Random, tallies: &mut Tallies) {
    let all = records(of);
    let first = all.len().min(4);
    for order in orders(first) {
        let mut turned: Vec<Record> = order.iter().map(|&at| all[at].clone()).collect();
        turned.extend_from_slice(&all[first..]);
        read_both(
            &file(of.perm.len(), &turned),
            of.perm.len(),
            random,
            tallies,
        );
    }
}

/// All orders of this many things.
fn orders(count: usize) -> Vec<Vec<usize>> {
    let mut all = vec![Vec::new()];
    for at in 0..count {
        let longer = |order: &Vec<usize>| {
            let order = order.clone();
            (0..=at).map(move |place| {
                let mut order = order.clone();
                order.insert(place, at);
                order
            })
        };
        all = all.iter().flat_map(longer).collect();
    }
    all
}

/// One call of the writer; the slice holds other bytes before, and keeps those behind the file.
fn write(of: &Match, ask: &Ask, tally: &mut Tally) {
    let expected = written(ask.n, ask.matched, of, ask.room, ask.used);
    let number = expected.as_ref().err().copied().unwrap_or(0);
    let (mut sheet, mut used) = (vec![0xA5; ask.room], vec![77; ask.used]);
    let [u, v, cmax] = [&of.u, &of.v, &of.cmax].map(|list| doubles(list));
    let got = raw::write_sheet(
        ask.n,
        ask.matched,
        &of.perm,
        &u,
        &v,
        &cmax,
        &mut sheet,
        &mut used,
    );
    let (mut sheet_after, mut used_after) = (vec![0xA5; ask.room], vec![77; ask.used]);
    if let Ok(bytes) = &expected {
        sheet_after[..bytes.len()].copy_from_slice(bytes);
        used_after[0] = bytes.len() as u32;
    }
    let compared = answer(&got, number)
        .and_then(|()| same("sheet", &sheet, &sheet_after))
        .and_then(|()| same("used", &used, &used_after));
    tally.add(number, compared, &(ask.n, ask.matched, of));
}

/// The same file through both readers, and through the host's functions.
fn read_both(bytes: &[u8], n: usize, random: &mut Random, tallies: &mut Tallies) {
    let mut before = inputs::random_match(n, random);
    let mut answers = 2;
    if random.chance(30) {
        inputs::damage_length(&mut before, random);
    }
    if random.chance(10) {
        answers = random.below(4);
    }
    read_one(bytes, &before, answers, false, &mut tallies.read);
    read_one(bytes, &before, answers, true, &mut tallies.canonical);
}

fn read_one(bytes: &[u8], before: &Match, answers: usize, canonical: bool, tally: &mut Tally) {
    let expected = read(bytes, before.lengths(), answers, canonical);
    let number = expected.as_ref().err().copied().unwrap_or(0);
    let call = match canonical {
        true => raw::read_canonical_sheet,
        false => raw::read_sheet,
    };
    let mut perm = before.perm.clone();
    let [mut u, mut v, mut cmax] = [&before.u, &before.v, &before.cmax].map(|list| doubles(list));
    let mut counts = vec![77; answers];
    let got = call(bytes, &mut perm, &mut u, &mut v, &mut cmax, &mut counts);
    let after = expected.as_ref().unwrap_or(before);
    let counts_after = match number {
        0 => vec![after.perm.len() as u32, after.matched()],
        _ => vec![77; answers],
    };
    let compared = answer(&got, number)
        .and_then(|()| same("perm", &perm, &after.perm))
        .and_then(|()| same("u", &u, &doubles(&after.u)))
        .and_then(|()| same("v", &v, &doubles(&after.v)))
        .and_then(|()| same("cmax", &cmax, &doubles(&after.cmax)))
        .and_then(|()| same("answer", &counts, &counts_after))
        .and_then(|()| host(bytes, canonical));
    tally.add(number, compared, &(bytes, before));
}

/// The host's functions, which take lengths from the file: what is read and written again is read alike.
fn host(bytes: &[u8], canonical: bool) -> Result<(), String> {
    let size = bytes
        .first_chunk()
        .map_or(0, |n| u16::from_le_bytes(*n).into());
    let expected = read(bytes, [size; 4], 2, canonical);
    let got = match canonical {
        true => Matching::from_canonical_sheet(bytes),
        false => Matching::from_sheet(bytes),
    };
    answer(&got, expected.as_ref().err().copied().unwrap_or(0))?;
    let (Ok(found), Ok(expected)) = (got, expected) else {
        return Ok(());
    };
    let again = found
        .to_sheet()
        .map_err(|refusal| format!("written again: {refusal}"))?;
    same("written again", &again, &file(size, &records(&expected)))?;
    answer(&Matching::from_canonical_sheet(&again), 0)?;
    match canonical {
        true => same("the canonical file", &again, bytes),
        false => Ok(()),
    }
}

/// Doubles of these bits.
fn doubles(bits: &[u64]) -> Vec<f64> {
    bits.iter().map(|&bits| f64::from_bits(bits)).collect()
}
