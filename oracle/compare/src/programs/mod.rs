//! The programs `ties` and `pairs`: what they print, byte for byte, and their status. Refusals are expected by
//! SPECIFICATION's rules, restated in `reader`; the original runs on accepted files alone. What `pairs` prints is read
//! again by both.

mod bytes;
mod damage;
mod expected;
mod file;
mod program;
mod reader;
mod rules;
mod sheets;
mod text;
mod words;

use crate::matching::plain;
use crate::tally::Tally;
use expected::expected;
use oracle::random::Random;
use program::Program;
use std::process::Output;
use std::time::{Duration, Instant};
use text::Form;

/// Runs on the largest sheets, and the time that each has on average.
const TIMED: u32 = 200;
const TIME_LIMIT: Duration = Duration::from_millis(5);

/// A file up to this length is handed over slowly byte by byte, a longer one in larger pieces.
const SHORT: usize = 500;

struct Run {
    name: &'static str,
    form: Form,
    program: Program,
    tally: Tally,
    slowly: Tally,
    again: Option<Again>,
    /// Accepted files by kind.
    accepted: [u64; 3],
}

/// What is made of a text of `pairs`.
struct Again {
    ties: Program,
    tally: Tally,
}

/// Whether `ties` was alike on as many files, and fast enough.
pub fn ties(count: u64, random: &mut Random) -> bool {
    let tallies = [Tally::new("ties"), Tally::new("ties, input in pieces")];
    match Program::find("ties") {
        Some(program) => Run::new("ties", Form::Report, program, tallies, None).all(count, random),
        None => false,
    }
}

/// Whether `pairs` was, and its texts read again.
pub fn pairs(count: u64, random: &mut Random) -> bool {
    let tallies = [Tally::new("pairs"), Tally::new("pairs, input in pieces")];
    let (Some(program), Some(ties)) = (Program::find("pairs"), Program::find("ties")) else {
        return false;
    };
    let tally = Tally::new("pairs, read again by both");
    let again = Some(Again { ties, tally });
    Run::new("pairs", Form::Pairs, program, tallies, again).all(count, random)
}

/// The file with a few changes.
fn damaged(file: &file::File, random: &mut Random) -> Vec<u8> {
    let mut file = file.clone();
    let spoiled = random.chance(250);
    for _ in usize::from(spoiled)..1 + random.below(3) {
        damage::damage(&mut file, random);
    }
    let mut bytes = file.bytes(random);
    if spoiled {
        bytes::spoil(&mut bytes, random);
    }
    bytes
}

impl Run {
    fn new(
        name: &'static str,
        form: Form,
        program: Program,
        [tally, slowly]: [Tally; 2],
        again: Option<Again>,
    ) -> Run {
        Run {
            name,
            form,
            program,
            tally,
            slowly,
            again,
            accepted: [0; 3],
        }
    }

    /// The cases by hand, `count` files, half of them damaged, those at the limits, and weights around the limit of
    /// each size; some also in pieces. Whether all was alike and fast enough.
    fn all(mut self, count: u64, random: &mut Random) -> bool {
        for (number, file) in rules::cases() {
            self.by_hand(number, &file);
            self.in_pieces(&file);
        }
        for (file, texts) in rules::SHEETS {
            let text = texts[usize::from(self.form == Form::Pairs)];
            let (_, found) = expected(self.form, file.as_bytes());
            assert_eq!(found, text, "the expected text of {file}");
            self.by_hand(0, file.as_bytes());
        }
        for _ in 0..count {
            let file = sheets::random(random);
            let bytes = match random.chance(500) {
                true => file.bytes(random),
                false => damaged(&file, random),
            };
            self.whole(&bytes);
            if random.chance(10) {
                self.in_pieces(&bytes);
            }
        }
        self.limits(random);
        let timely = self.times(random);
        self.end() & timely
    }

    fn limits(&mut self, random: &mut Random) {
        for file in sheets::at_limits(random) {
            self.whole(&file.bytes(random));
            for _ in 0..20 {
                self.whole(&damaged(&file, random));
            }
        }
        let around = [
            sheets::around_last_costs(random),
            sheets::around_last_values(random),
        ];
        for file in around.concat() {
            self.whole(&file.bytes(random));
        }
    }

    fn whole(&mut self, file: &[u8]) {
        let got = self.program.run(file);
        let number = compare(self.form, file, &got, &mut self.tally);
        if let Ok(sheet) = reader::read(file) {
            self.accepted[sheet.kind as usize] += 1;
        }
        if let (0, Some(again)) = (number, &mut self.again) {
            again.one(&self.program, file, &got.stdout);
        }
    }

    fn in_pieces(&mut self, file: &[u8]) {
        let piece = if file.len() <= SHORT { 1 } else { 97 };
        let got = self.program.run_slowly(file, piece);
        compare(self.form, file, &got, &mut self.slowly);
    }

    /// The reader is held to SPECIFICATION, then the program to the reader.
    fn by_hand(&mut self, number: u32, file: &[u8]) {
        let (expected, _) = expected(self.form, file);
        assert_eq!(
            expected,
            number,
            "the reader's number of {}",
            file.escape_ascii()
        );
        self.whole(file);
    }

    /// Times the largest sheets, from the start of the process to its end; whether they were fast enough.
    fn times(&mut self, random: &mut Random) -> bool {
        let mut spent = Duration::ZERO;
        for _ in 0..TIMED {
            let file = sheets::largest(random);
            let start = Instant::now();
            let got = self.program.run(&file);
            spent += start.elapsed();
            compare(self.form, &file, &got, &mut self.tally);
        }
        let (name, each) = (self.name, spent / TIMED);
        println!(
            "{name}: {:.2} ms a run on the largest sheets, {TIMED} runs (limit {TIME_LIMIT:?})",
            1e3 * each.as_secs_f64()
        );
        each < TIME_LIMIT
    }

    fn end(&self) -> bool {
        let [general, symmetric, pattern] = self.accepted;
        println!(
            "{}: accepted {general} integer general, {symmetric} integer symmetric, {pattern} pattern general",
            self.name
        );
        let again = self.again.as_ref().is_none_or(|again| again.tally.end());
        self.tally.end() & self.slowly.end() & again
    }
}

impl Again {
    /// The text of `pairs` must be that of itself, and `ties` must match the same rows in it as in the file.
    fn one(&mut self, pairs: &Program, file: &[u8], text: &[u8]) {
        let (_, report) = expected(Form::Report, file);
        let (_, second) = expected(Form::Report, text);
        let twice = pairs.run(text).stdout;
        let matched = self.ties.run(text).stdout;
        let compared = if twice != text {
            Err(format!("again it printed {}", twice.escape_ascii()))
        } else if matched != second.as_bytes() || rows(&second) != rows(&report) {
            Err(format!("`ties` printed {}", matched.escape_ascii()))
        } else {
            Ok(())
        };
        self.tally
            .add(0, compared, &format_args!("{}", text.escape_ascii()));
    }
}

/// The first line of a report, and of each column its row.
fn rows(report: &str) -> Vec<String> {
    let mut lines = report.lines();
    let first = lines.next().unwrap_or_default().to_string();
    let columns = lines.take_while(|line| !line.starts_with("counts"));
    let row = |line: &str| line.split(' ').take(2).collect::<Vec<_>>().join(" ");
    std::iter::once(first).chain(columns.map(row)).collect()
}

/// Holds one run to what is expected of its file; the number of the refusal.
fn compare(form: Form, file: &[u8], got: &Output, tally: &mut Tally) -> u32 {
    let (number, text) = expected(form, file);
    let compared = if !got.status.success() {
        Err(format!("ended with {}", got.status))
    } else if got.stdout != text.as_bytes() {
        let printed = got.stdout.escape_ascii();
        Err(format!("printed {printed}, not {}", text.escape_debug()))
    } else {
        Ok(())
    };
    tally.add(number, compared, &format_args!("{}", file.escape_ascii()));
    number
}
