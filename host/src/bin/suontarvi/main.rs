//! `suontarvi`: matching and scaling of Matrix Market files over the proved library. `suontarvi --help` says how.

// It never panics, and every write is checked.
#![cfg_attr(
    not(test),
    deny(
        clippy::expect_used,
        clippy::indexing_slicing,
        clippy::panic,
        clippy::print_stderr,
        clippy::print_stdout,
        clippy::unreachable,
        clippy::unwrap_used
    )
)]

mod arguments;
mod certificate;
mod commands;
mod exact_ln;
mod fault;
mod files;
mod help;
mod json;
mod loaded;
mod many;
mod matrix_market;
mod page;
mod picture;
mod places;
mod progress;
mod rule;
mod rutherford_boeing;
mod shortage;
mod shown;
mod streams;
mod vectors;

use std::ffi::OsString;
use std::process::ExitCode;

use arguments::Arguments;
use fault::{Done, Fault};

fn main() -> ExitCode {
    let given: Vec<OsString> = std::env::args_os().skip(1).collect();
    let json = arguments::json_is_asked(&given);
    match run(given) {
        Ok(()) => ExitCode::SUCCESS,
        Err(fault) => fault.tell(json),
    }
}

fn run(given: Vec<OsString>) -> Done {
    linked()?;
    let arguments = Arguments::read(given)?;
    if arguments.help {
        return files::write(None, help::help().as_bytes());
    }
    if arguments.version {
        return files::write(None, help::VERSION.as_bytes());
    }
    commands::run(&arguments)
}

/// The library answers as this crate expects only if both have the same version.
fn linked() -> Done {
    let [_, major, minor, patch] = suontarvi::version().to_be_bytes();
    let library = format!("{major}.{minor}.{patch}");
    match library == env!("CARGO_PKG_VERSION") {
        true => Ok(()),
        false => Err(Fault::new(format!(
            "the linked library is of version {library}, and this program of {}",
            env!("CARGO_PKG_VERSION")
        ))),
    }
}
