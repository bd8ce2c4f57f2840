//! Files with the number that SPECIFICATION gives them, 0 for accepted, worked out by hand: they test the reader
//! itself.

use super::reader::{INPUT_LIMIT, LINE_LIMIT};

/// Files, and what `ties` and `pairs` print of them: sample 2 of SPECIFICATION 13, a symmetric file, whose duals are in
/// units of 1/65,536, one with zeros alone, and a pattern in which one column stays free.
pub const SHEETS: [(&str, [&str; 2]); 4] = [
    (
        "%%MatrixMarket matrix coordinate integer general\n% reel 4\n3 3 8\n1 1 1\n2 1 3\n1 2 1\n\
         2 2 2\n3 2 5\n1 3 0\n2 3 0\n3 3 0\n",
        [
            "matched 3 of 3\n1 1 -1 2\n2 2 0 2\n3 3 0 0\ncounts 5 1 2 3 8 2 2\n",
            "%%MatrixMarket matrix coordinate pattern general\n3 3 3\n1 1\n2 2\n3 3\n",
        ],
    ),
    (
        "%%MatrixMarket matrix coordinate integer symmetric\n3 3 3\n2 1 -8\n3 2 1024\n3 1 3\n",
        [
            "matched 3 of 3\n1 3 458752 92736\n2 1 -92736 0\n3 2 0 92736\ncounts 4 1 1 2 4 1 1\n",
            "%%MatrixMarket matrix coordinate pattern general\n3 3 3\n3 1\n1 2\n2 3\n",
        ],
    ),
    (
        "%%MatrixMarket matrix coordinate integer symmetric\n1 1 1\n1 1 -0\n",
        [
            "matched 0 of 1\n1 0 0 0\ncounts 1 1 0 0 0 0 0\n",
            "%%MatrixMarket matrix coordinate pattern general\n1 1 0\n",
        ],
    ),
    (
        "%%MatrixMarket matrix coordinate pattern general\n2 2 2\n1 1\n1 2\n",
        [
            "matched 1 of 2\n1 0 0 0\n2 1 0 0\ncounts 3 1 1 1 2 1 1\n",
            "%%MatrixMarket matrix coordinate pattern general\n2 2 1\n1 2\n",
        ],
    ),
];

const BANNER: &str = "%%MatrixMarket matrix coordinate integer general";
const SYMMETRIC_BANNER: &str = "%%MatrixMarket matrix coordinate integer symmetric";
const PATTERN_BANNER: &str = "%%MatrixMarket matrix coordinate pattern general";

/// First lines, above `BELOW_FIRST`.
const FIRST: &[(u32, &str)] = &[
    (0, BANNER),
    (0, "%%MATRIXMARKET MATRIX COORDINATE INTEGER GENERAL"),
    (0, "%%matrixmarket matrix coordinate integer general\r"),
    (
        0,
        "%%MatrixMarket\tmatrix \r coordinate  integer general \t",
    ),
    (20, " %%MatrixMarket matrix coordinate integer general"),
    (20, "\r%%MatrixMarket matrix coordinate integer general"),
    (20, "\n%%MatrixMarket matrix coordinate integer general"),
    (
        20,
        "% first\n%%MatrixMarket matrix coordinate integer general",
    ),
    (20, "%MatrixMarket matrix coordinate integer general"),
    (20, "%% MatrixMarket matrix coordinate integer general"),
    (20, "%\x05MatrixMarket matrix coordinate integer general"),
    (20, "%%MatrixMarket matrix\x0bcoordinate integer general"),
    (20, "%%MatrixMarket\0matrix coordinate integer general"),
    (20, "%%MatrixMarket matrix coordinate integer general\x0c"),
    (20, "%%MatrixMarketmatrix coordinate integer general"),
    (20, "%%MatrixMarket matrix coordinate real general"),
    (0, SYMMETRIC_BANNER),
    (0, "%%matrixmarket MATRIX Coordinate iNTEGER sYMMETRIC \t\r"),
    (23, PATTERN_BANNER),
    (23, "%%MATRIXMARKET MATRIX COORDINATE PATTERN GENERAL"),
    (20, "%%MatrixMarket matrix coordinate pattern symmetric"),
    (20, "%%MatrixMarket matrix coordinate integer pattern"),
    (20, "%%MatrixMarket matrix coordinate symmetric integer"),
    (20, "%%MatrixMarket matrix coordinate general integer"),
    (20, "%%MatrixMarket matrix coordinate general pattern"),
    (20, "%%MatrixMarket matrix coordinate integer hermitian"),
    (
        20,
        "%%MatrixMarket matrix coordinate integer skew-symmetric",
    ),
    (20, "%%MatrixMarket matrix coordinate integer symmetrical"),
    (20, "%%MatrixMarket matrix coordinate integer symmetri"),
    (20, "%%MatrixMarket matrix coordinate patterns general"),
    (20, "%%MatrixMarket matrix coordinate real symmetric"),
    (
        20,
        "%%MatrixMarket matrix coordinate integer general symmetric",
    ),
    (
        20,
        "%%MatrixMarket matrix coordinate integer pattern general",
    ),
    (20, "%%MatrixMarket matrix array integer symmetric"),
    (20, " %%MatrixMarket matrix coordinate pattern general"),
    (20, "%%MatrixMarket matrix coordinate integer"),
    (20, "%%MatrixMarket matrix coordinate integer general 1"),
    (20, ""),
];

const BELOW_FIRST: &str = "\n1 1 1\n1 1 7\n";

/// What stands under the banner and its line feed.
const BELOW: &[(u32, &str)] = &[
    (21, ""),
    (21, "\n"),
    (21, "% a comment\n \t\r\n"),
    (0, "0 0 0"),
    (0, "%\n%%\n\n0 0 0\n\n \t\r\n\n"),
    (0, "\r\n 1\t1\r0 \r\n"),
    (0, "000000000000000001 1 00"),
    (21, "0000000000000000001 1 0"),
    (21, " % no comment\n1 1 0"),
    (21, "1 1"),
    (21, "1 1 0 0"),
    (21, "1 1 0 %"),
    (21, "1 1 +0"),
    (21, "1 1 -0"),
    (21, "1 1 0.0"),
    (21, "1 1 0\0"),
    (21, "1\x0b1 0"),
    (21, "1\x0c1 1 0"),
    (21, "1 1 \u{661}"),
    (21, "1 1 :"),
    (21, "1 1 /"),
    (21, "1 2 0"),
    (21, "1 4294967297 0"),
    (21, "64 65 0"),
    (21, "65 64 0"),
    (21, "65 66 513"),
    (22, "65 65 0"),
    (22, "4294967297 4294967297 0"),
    (22, "999999999999999999 999999999999999999 0"),
    (22, "1 1 513"),
    (22, "1 1 4294967296"),
    (22, "65 65 513\nx"),
    (0, "64 64 0"),
    (24, "64 64 512"),
    (24, "0 0 1"),
    (23, "0 0 1\n1 1 1"),
    (24, "0 0 0\n1 1 1"),
    (24, "0 0 0\n%"),
    (24, "1 1 1\n\n"),
    (0, "\n1 1 1\n \n\r1 001 281474976710655\t\n\n"),
    (23, "1 1 1\n1 1 281474976710656"),
    (0, "3 3 1\n1 1 93824992236885"),
    (23, "3 3 1\n1 1 93824992236886"),
    (0, "64 64 1\n1 1 4398046511103"),
    (23, "64 64 1\n1 1 4398046511104"),
    (23, "64 64 1\n1 1 288230376151711744"),
    (23, "1 1 1\n1 1 999999999999999999"),
    (23, "1 1 1\n1 1 0000000000000000000"),
    (0, "1 1 1\n1 1 000000000000000000"),
    (23, "1 1 1\n0 1 1"),
    (23, "1 1 1\n1 0 1"),
    (23, "1 1 1\n2 1 1"),
    (23, "1 1 1\n1 2 1"),
    (23, "1 1 1\n4294967297 1 1"),
    (23, "1 1 1\n1 1"),
    (23, "1 1 1\n1 1 1 1"),
    (23, "1 1 1\n1 1 1.0"),
    (23, "1 1 1\n1 1 +1"),
    (23, "1 1 1\n1 1 -0"),
    (23, "1 1 1\n1 1\x0b1 1"),
    (23, "1 1 1\n% a line below the size"),
    (23, "1 1 2\n1 1 1\n%"),
    (24, "1 1 1\n1 1 1\n%"),
    (24, "1 1 1\n1 1 1\nx y"),
    (24, "1 1 2\n1 1 1"),
    (25, "2 2 2\n1 1 1\n1 1 1"),
    (25, "2 2 3\n1 1 1\n2 1 1\n1 1 9\n\n"),
    (24, "2 2 1\n1 1 1\n1 1 1"),
    (24, "2 2 3\n1 1 1\n1 1 1"),
    (23, "2 2 3\n1 1 1\n1 1 1\n3 1 1"),
    (0, "2 2 2\n1 2 1\n2 1 1"),
    (21, "x\n1 1 1\n0 0 0"),
    (23, "2 2 1\n0 0 0\n1 1 1\n1 1 1"),
    (0, "2 2 1\n1 2 5"),
    (23, "2 2 1\n2 1 -5"),
    (23, "2 2 1\n1 2"),
];

/// The same of a symmetric file.
const SYMMETRIC: &[(u32, &str)] = &[
    (0, "0 0 0"),
    (21, ""),
    (21, "2 2 -0"),
    (21, "-2 -2 0"),
    (21, "2 2"),
    (22, "65 65 0"),
    (22, "1 1 513"),
    (24, "64 64 512"),
    (0, "2 2 1\n2 1 5"),
    (0, "2 2 1\n2 1 -5"),
    (0, "2 2 1\n2 2 -5"),
    (23, "2 2 1\n2 1 +5"),
    (23, "2 2 1\n2 1 -"),
    (23, "2 2 1\n2 1 --5"),
    (23, "2 2 1\n2 1 -+5"),
    (23, "2 2 1\n2 1 5-"),
    (23, "2 2 1\n2 1 - 5"),
    (23, "2 2 1\n2 1 -5.0"),
    (23, "2 2 1\n-2 1 5"),
    (23, "2 2 1\n2 -1 5"),
    (23, "2 2 1\n2 1"),
    (23, "2 2 1\n2 1 5 5"),
    (0, "2 2 1\n2 1 -0"),
    (0, "2 2 1\n2 1 -000000000000000000"),
    (23, "2 2 1\n2 1 -0000000000000000000"),
    (0, "2 2 1\n2 1 9007199254740991"),
    (0, "2 2 1\n2 1 -009007199254740991"),
    (23, "2 2 1\n2 1 9007199254740992"),
    (23, "2 2 1\n2 1 -9007199254740992"),
    (23, "2 2 1\n2 1 999999999999999999"),
    (0, "64 64 1\n64 1 9007199254740991"),
    (26, "2 2 1\n1 2 5"),
    (26, "2 2 1\n1 2 -0"),
    (26, "2 2 1\n1 2 9007199254740991"),
    (23, "2 2 1\n1 2 9007199254740992"),
    (23, "2 2 1\n1 2 --5"),
    (23, "2 2 1\n1 2"),
    (23, "2 2 1\n1 3 5"),
    (23, "2 2 1\n0 1 5"),
    (26, "2 2 2\n1 2 5"),
    (26, "2 2 2\n1 2 5\nx"),
    (23, "2 2 2\nx\n1 2 5"),
    (26, "2 2 2\n1 2 0\n1 2 0"),
    (26, "2 2 3\n2 1 1\n2 1 1\n1 2 1"),
    (24, "2 2 1\n2 1 0\n1 2 0"),
    (24, "2 2 1\n2 1 0\n2 1 --5"),
    (24, "2 2 2\n2 1 5"),
    (25, "2 2 2\n2 1 0\n2 1 -0"),
    (25, "2 2 3\n2 1 5\n1 1 1\n2 1 -7"),
    (24, "2 2 3\n2 1 5\n2 1 5"),
    (0, "2 2 3\n2 1 5\n1 1 0\n2 2 -7"),
];

/// The same of a pattern.
const PATTERN: &[(u32, &str)] = &[
    (0, "0 0 0"),
    (21, ""),
    (21, "2 2"),
    (21, "2 3 1"),
    (22, "65 65 0"),
    (22, "1 1 513"),
    (0, "2 2 1\n1 2"),
    (0, "2 2 1\n \t1\r 002 "),
    (0, "64 64 1\n64 64"),
    (0, "2 2 2\n1 2\n2 1"),
    (23, "2 2 1\n1"),
    (23, "2 2 1\n1 2 3"),
    (23, "2 2 1\n1 2 0"),
    (23, "2 2 1\n1 2 %"),
    (23, "2 2 1\n-1 2"),
    (23, "2 2 1\n1 -2"),
    (23, "2 2 1\n1 3"),
    (23, "2 2 1\n3 1"),
    (23, "2 2 1\n0 1"),
    (23, "2 2 1\n%"),
    (24, "2 2 0\n1 2"),
    (24, "2 2 1\n1 2\n1 2 3"),
    (24, "2 2 2\n1 2"),
    (25, "2 2 2\n1 2\n1 2"),
    (25, "2 2 3\n1 2\n1 1\n01 2"),
];

/// What stands under the banner, and then a line that is too long.
const BEFORE_LONG: &[(u32, &str)] = &[
    (22, ""),
    (21, "x\n"),
    (22, "1 1 0\n"),
    (23, "1 1 1\nx\n"),
    (22, "1 1 1\n"),
    (24, "1 1 0\nx\n"),
    (22, "2 2 2\n1 1 1\n1 1 1\n"),
];

/// The lines of a file with one line too many, refused with 24.
const LINES: &[&str] = &[BANNER, "%", "", "1 1 1", " ", "1 1 7", "\t", "x"];

pub fn cases() -> Vec<(u32, Vec<u8>)> {
    let mut cases = vec![(20, "".into()), (20, "\n".into())];
    for (number, first) in FIRST {
        cases.push((*number, [first, BELOW_FIRST].concat().into()));
    }
    let below_each = [
        (BANNER, BELOW),
        (SYMMETRIC_BANNER, SYMMETRIC),
        (PATTERN_BANNER, PATTERN),
    ];
    for (banner, below_banner) in below_each {
        cases.push((21, banner.into()));
        for (number, below) in below_banner {
            cases.push((*number, [banner, "\n", below].concat().into()));
        }
    }
    for at in 0..LINES.len() {
        cases.push((24, long(at, LINE_LIMIT)));
        cases.push((22, long(at, LINE_LIMIT + 1)));
    }
    for (number, below) in BEFORE_LONG {
        let line = "%".repeat(LINE_LIMIT + 1);
        cases.push((*number, [BANNER, "\n", below, &line].concat().into()));
    }
    let sheets = SHEETS.map(|(sheet, _)| (0, sheet));
    for (number, text) in sheets.into_iter().chain([(20, "x\n")]) {
        cases.push((number, filled(text, INPUT_LIMIT)));
        cases.push((22, filled(text, INPUT_LIMIT + 1)));
        cases.push((22, filled(text, (1 << 16) + text.len())));
    }
    cases
}

/// `LINES` with carriage returns behind one of them, up to a length.
fn long(at: usize, length: usize) -> Vec<u8> {
    let mut lines: Vec<String> = LINES.iter().map(|&line| line.into()).collect();
    lines[at] = format!("{:\r<length$}", lines[at]);
    lines.join("\n").into()
}

/// The text and empty lines.
fn filled(text: &str, length: usize) -> Vec<u8> {
    let mut bytes: Vec<u8> = text.into();
    bytes.resize(length, b'\n');
    bytes
}
