//! Runs of the tool.
#![allow(dead_code)] // not every test uses all

use std::fs;
use std::path::{Path, PathBuf};
use std::process::{Command, Output, Stdio};

pub const WEEK: &str = concat!(env!("CARGO_MANIFEST_DIR"), "/examples/week.mtx");

pub fn path(name: &str) -> PathBuf {
    Path::new(env!("CARGO_TARGET_TMPDIR")).join(name)
}

/// A file with this content, by its path.
pub fn file(name: &str, content: impl AsRef<[u8]>) -> String {
    fs::write(path(name), content).unwrap();
    path(name).to_str().unwrap().into()
}

/// A folder of its own, empty.
pub fn folder(name: &str) -> PathBuf {
    let folder = path(name);
    let _ = fs::remove_dir_all(&folder);
    fs::create_dir_all(&folder).unwrap();
    folder
}

/// The names in a folder, in order.
pub fn names(folder: &Path) -> Vec<String> {
    let mut names: Vec<String> =
        fs::read_dir(folder).unwrap().map(|entry| entry.unwrap().file_name().into_string().unwrap()).collect();
    names.sort();
    names
}

pub fn run(words: &[&str]) -> Output {
    Command::new(env!("CARGO_BIN_EXE_suontarvi")).args(words).stdin(Stdio::null()).output().unwrap()
}

/// Standard output of a run that must go well.
pub fn answer(words: &[&str]) -> String {
    let Output { status, stdout, stderr } = run(words);
    assert!(status.success(), "{words:?}: {}", String::from_utf8_lossy(&stderr));
    assert!(stderr.is_empty());
    String::from_utf8(stdout).unwrap()
}

/// Standard error of a run that must not; it prints nothing else.
pub fn fault(words: &[&str], status: i32) -> String {
    let output = run(words);
    let said = String::from_utf8(output.stderr).unwrap();
    assert_eq!(output.status.code(), Some(status), "{words:?}: {said}");
    assert!(output.stdout.is_empty());
    said
}

/// Status, standard output and standard error of a line for bash, in which $SUONTARVI is the tool and $WEEK a file.
pub fn shell(line: &str) -> (Option<i32>, String, String) {
    let output = Command::new("bash")
        .args(["-c", line])
        .env("SUONTARVI", env!("CARGO_BIN_EXE_suontarvi"))
        .env("WEEK", WEEK)
        .current_dir(env!("CARGO_TARGET_TMPDIR"))
        .stdin(Stdio::null())
        .output()
        .unwrap();
    let text = |bytes: Vec<u8>| String::from_utf8_lossy(&bytes).into_owned();
    (output.status.code(), text(output.stdout), text(output.stderr))
}
