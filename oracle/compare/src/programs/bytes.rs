//! Changes of a file's bytes.

use super::file::pick;
use super::reader::{INPUT_LIMIT, LINE_LIMIT};
use oracle::random::Random;

/// One change; now and then it leaves the file whole.
pub fn spoil(bytes: &mut Vec<u8>, random: &mut Random) {
    let at = random.below(bytes.len() + 1);
    let some = usize::from(at < bytes.len());
    match random.below(10) {
        0 => bytes.truncate(at),
        1 => drop(bytes.splice(at..at + some, [random.bits() as u8])),
        2 => bytes.insert(at, pick(random, b"\0\n\r\x0b\x0c%\x801 ")),
        3 => drop(bytes.drain(at..at + some)),
        4 => feeds(bytes, b"\r"),
        5 => feeds(bytes, b"\n\n"),
        6 => drop(bytes.splice(..0, *b"\xef\xbb\xbf")),
        7 => {
            let kept = bytes.iter().position(|&byte| byte == b'\n');
            bytes.truncate(kept.unwrap_or(0) + random.below(2));
        }
        _ => {
            let totals = [
                INPUT_LIMIT,
                INPUT_LIMIT + 1,
                INPUT_LIMIT - 1,
                40_000,
                65_537,
            ];
            fill(bytes, pick(random, &totals), random);
        }
    }
}

/// Each line feed becomes something else.
fn feeds(bytes: &mut Vec<u8>, other: &[u8]) {
    let lines: Vec<&[u8]> = bytes.split(|&byte| byte == b'\n').collect();
    *bytes = lines.join(other);
}

/// Blank lines at the end, or blank lines and comments under the banner, up to as many bytes in all.
pub fn fill(bytes: &mut Vec<u8>, total: usize, random: &mut Random) {
    if bytes.len() >= total {
        return;
    }
    let banner = bytes.iter().position(|&byte| byte == b'\n');
    let (at, first) = match banner {
        Some(end) if random.chance(500) => (end + 1, pick(random, b"% ")),
        _ => (bytes.len(), b' '),
    };
    let mut filler = Vec::new();
    if at > 0 && bytes[at - 1] != b'\n' {
        filler.push(b'\n');
    }
    while bytes.len() + filler.len() < total {
        let room = total - bytes.len() - filler.len();
        let line = room.min(1 + random.below(LINE_LIMIT + 1));
        filler.resize(filler.len() + line - 1, first);
        filler.push(b'\n');
    }
    bytes.splice(at..at, filler);
}
