//! A program as a process of its own.

use std::io::{ErrorKind, Result, Write};
use std::path::{Path, PathBuf};
use std::process::{Child, Command, Output, Stdio};
use std::thread::sleep;
use std::time::Duration;

/// What the program needs until it waits for input, and to take a piece of it.
const START: Duration = Duration::from_millis(3);
const PAUSE: Duration = Duration::from_micros(50);

pub struct Program(PathBuf);

impl Program {
    /// `ties` or `pairs`: the one that SUONTARVI_TIES or SUONTARVI_PAIRS names, or that of the repository's target/bin.
    pub fn find(name: &str) -> Option<Program> {
        let variable = format!("SUONTARVI_{}", name.to_uppercase());
        let own = Path::new(env!("CARGO_MANIFEST_DIR"))
            .join("../../target/bin")
            .join(name);
        let path = std::env::var_os(&variable).map_or(own, PathBuf::from);
        if !path.is_file() {
            let path = path.display();
            eprintln!(
                "{path} is not there: run `tools/build.sh {name}` in the repository, or set {variable}"
            );
            return None;
        }
        Some(Program(path))
    }

    /// A run on a file that is there at once.
    pub fn run(&self, file: &[u8]) -> Output {
        self.feed(|child| hand(child, file))
    }

    /// A run on a file that comes in pieces, each when the one before it is taken.
    pub fn run_slowly(&self, file: &[u8], piece: usize) -> Output {
        self.feed(|child| {
            sleep(START);
            file.chunks(piece).try_for_each(|piece| {
                hand(child, piece)?;
                sleep(PAUSE);
                Ok(())
            })
        })
    }

    fn feed(&self, hand_over: impl FnOnce(&mut Child) -> Result<()>) -> Output {
        let spawned = Command::new(&self.0)
            .stdin(Stdio::piped())
            .stdout(Stdio::piped())
            .spawn();
        let mut child = spawned.expect("the program starts");
        match hand_over(&mut child) {
            // it may answer before it has read all
            Err(error) if error.kind() == ErrorKind::BrokenPipe => {}
            handed => handed.expect("the program is handed its input"),
        }
        // waiting closes its input
        child.wait_with_output().expect("the program ends")
    }
}

fn hand(child: &mut Child, bytes: &[u8]) -> Result<()> {
    let input = child.stdin.as_mut().expect("its input is a pipe");
    input.write_all(bytes)?;
    input.flush()
}
