//! The programs `ties` and `pairs`, each run a process from its start to its end, beside a plain Rust program of the
//! same rules: the reader and the match of the comparison, which `bench` runs as a process when it is called as
//! `plain`.

#[path = "../../oracle/compare/src/matching/plain.rs"]
mod plain;
#[path = "../../oracle/compare/src/programs/reader.rs"]
mod reader;
#[path = "../../oracle/compare/src/programs/text.rs"]
mod text;

use crate::logs;
use crate::timing::{processes, Times};
use oracle::random::Random;
use reader::{Kind, INPUT_LIMIT, KINDS};
use std::io::{Read, Write};
use std::path::{Path, PathBuf};
use std::process::{Command, Stdio};
use text::Form;

const PROGRAMS: [&str; 2] = ["ties", "pairs"];

const RUNS: usize = 201;

/// Whether both programs were there.
pub fn run(times: &mut Times) -> bool {
    let Some(programs) = PROGRAMS.map(find).into_iter().collect::<Option<Vec<_>>>() else {
        return false;
    };
    let bench = std::env::current_exe().expect("this program has a path");
    let mut random = Random::new(1);
    for kind in KINDS {
        for (n, per_column) in [(0, 0), (16, 4), (64, 8)] {
            let (file, lines) = sheet(kind, n, per_column, &mut random);
            let [_, _, _, field, symmetry] = kind.banner();
            let input = format!("{field} {symmetry}, N {n}, L {lines}, process included");
            for (name, program) in PROGRAMS.iter().zip(&programs) {
                let ours = || Command::new(program);
                let rust = || {
                    let mut command = Command::new(&bench);
                    command.args(["plain", name]);
                    command
                };
                beside(times, name, &input, &file, ours, rust);
            }
        }
    }
    true
}

/// Both in turn; they must print the same.
fn beside(
    times: &mut Times,
    name: &str,
    input: &str,
    file: &str,
    ours: impl Fn() -> Command,
    rust: impl Fn() -> Command,
) {
    let (mut our_times, mut rust_times) = (Vec::new(), Vec::new());
    for _ in 0..RUNS {
        let (our_time, our_text) = timed(ours(), file);
        let (rust_time, rust_text) = timed(rust(), file);
        assert_eq!(our_text, rust_text, "both print the same of {input}");
        our_times.push(our_time);
        rust_times.push(rust_time);
    }
    times.measured(name, input, our_times, rust_times);
}

/// The plain program of that name: standard input to standard output.
pub fn plain_program(name: &str) {
    let form = if name == "pairs" {
        Form::Pairs
    } else {
        Form::Report
    };
    let mut input = Vec::new();
    let front = std::io::stdin().take(INPUT_LIMIT as u64 + 1);
    { front }
        .read_to_end(&mut input)
        .expect("the input is read");
    let text = match reader::read(&input) {
        Ok(sheet) => {
            let log = |x: f64| logs::plain(x).expect("no zero has a logarithm");
            text::text(form, &plain::plain(&sheet.graph(log)))
        }
        Err(number) => text::refused(number),
    };
    let written = std::io::stdout().write_all(text.as_bytes());
    written.expect("the output is written");
}

/// The program that SUONTARVI_TIES or SUONTARVI_PAIRS names, or the repository's.
fn find(name: &str) -> Option<PathBuf> {
    let variable = format!("SUONTARVI_{}", name.to_uppercase());
    let own = Path::new(env!("CARGO_MANIFEST_DIR"))
        .join("../target/bin")
        .join(name);
    let program = std::env::var_os(&variable).map_or(own, PathBuf::from);
    if !program.is_file() {
        let path = program.display();
        eprintln!(
            "{path} is not there: run `tools/build.sh {name}` in the repository, or set {variable}"
        );
        return None;
    }
    Some(program)
}

/// Columns of as many rows each, with random weights, and the number of lines; n is a power of two or 0. A symmetric
/// file has what lies on or below the diagonal.
fn sheet(kind: Kind, n: usize, per_column: usize, random: &mut Random) -> (String, usize) {
    let mut lines = Vec::new();
    for column in 1..=n {
        let (first, step) = (random.below(n), 2 * random.below(n / 2) + 1);
        for k in 0..per_column {
            let (row, weight) = ((first + k * step) % n + 1, random.bits() % (1 << 36));
            match kind {
                Kind::General => lines.push(format!("{row} {column} {weight}\n")),
                Kind::Symmetric if row < column => {}
                Kind::Symmetric => lines.push(format!("{row} {column} -{weight}\n")),
                Kind::Pattern => lines.push(format!("{row} {column}\n")),
            }
        }
    }
    let banner = kind.banner().join(" ");
    let file = format!("{banner}\n{n} {n} {}\n{}", lines.len(), lines.concat());
    (file, lines.len())
}

/// The processor time of a process, in microseconds, and what it printed.
fn timed(mut command: Command, file: &str) -> (f64, Vec<u8>) {
    let start = processes();
    let spawned = command.stdin(Stdio::piped()).stdout(Stdio::piped()).spawn();
    let mut child = spawned.expect("the program starts");
    let mut input = child.stdin.take().expect("its input is a pipe");
    input.write_all(file.as_bytes()).expect("the program reads");
    drop(input);
    let output = child.wait_with_output().expect("the program ends");
    let time = processes() - start;
    assert!(!output.stdout.starts_with(b"refused"), "the sheet is taken");
    (time, output.stdout)
}
