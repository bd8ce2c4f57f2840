//! The oracle as a filter: requests on standard input, one answer each on
//! standard output. README.md describes the format.

mod answers;

use oracle::text::Request;
use std::io::{self, BufRead, Write};
use std::process::ExitCode;

fn main() -> ExitCode {
    match run() {
        Ok(()) => ExitCode::SUCCESS,
        Err(message) => {
            eprintln!("oracle: {message}");
            ExitCode::FAILURE
        }
    }
}

/// Each answer is sent before the next request is read, so that a driver can
/// ask in turns.
fn run() -> Result<(), String> {
    let mut input = (1..).zip(io::stdin().lock().lines());
    let mut output = io::stdout().lock();
    while let Some(request) = Request::read(&mut input)? {
        let answer = answers::answer(request)?;
        output
            .write_all(answer.as_bytes())
            .and_then(|()| output.flush())
            .map_err(|e| format!("cannot write the answer: {e}"))?;
    }
    Ok(())
}
