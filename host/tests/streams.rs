//! The tool never panics and never loses an answer: names of any bytes, streams that are closed, full or gone.

mod common;

use std::ffi::OsStr;
use std::fs::{self, Permissions};
use std::io::Write;
use std::os::unix::ffi::OsStrExt;
use std::os::unix::fs::{PermissionsExt, symlink};
use std::process::{Command, Stdio};

use common::{WEEK, answer, fault, file, folder, names, path, shell};

const TOOL: &str = env!("CARGO_BIN_EXE_suontarvi");

#[test]
fn names_that_are_not_utf8() {
    let odd = path("").join(OsStr::from_bytes(b"odd-\xff.mtx"));
    fs::copy(WEEK, &odd).unwrap();
    let output = Command::new(TOOL).arg("match").arg(&odd).output().unwrap();
    assert_eq!(output.status.code(), Some(0));
    assert_eq!(String::from_utf8(output.stdout).unwrap(), answer(&["match", WEEK]));
    let out = path("").join(OsStr::from_bytes(b"out-\xfe"));
    let option = [b"--out=".as_slice(), out.as_os_str().as_bytes()].concat();
    let output = Command::new(TOOL).arg("match").arg(&odd).arg(OsStr::from_bytes(&option)).output().unwrap();
    assert_eq!((output.status.code(), output.stdout.len()), (Some(0), 0));
    assert_eq!(fs::read_to_string(&out).unwrap(), answer(&["match", WEEK]));
    // told in letters that a terminal takes
    let missing = Command::new(TOOL).arg("match").arg(OsStr::from_bytes(b"no-\xff\x1b.mtx")).output().unwrap();
    assert_eq!(missing.status.code(), Some(1));
    let said = String::from_utf8(missing.stderr).unwrap();
    assert!(said.starts_with("suontarvi: no-\\xff\\u{1b}.mtx: the file could not be read: No such file"), "{said}");
    let check = &["check", WEEK, "sheet"][..];
    let scale = &["scale", WEEK][..];
    for (words, word) in [(check, b"\xff".as_slice()), (scale, b"--\xff"), (scale, b"--rule=\xff"), (scale, b"-\xff")] {
        let output = Command::new(TOOL).args(words).arg(OsStr::from_bytes(word)).output().unwrap();
        assert_eq!(output.status.code(), Some(2), "{word:?}");
        assert!(String::from_utf8(output.stderr).unwrap().contains("\\xff"), "{word:?}");
    }
}

#[test]
fn a_standard_error_that_cannot_be_written() {
    for stream in ["2>/dev/full", "2>&-", "2</dev/null"] {
        for (words, status) in [("match none.mtx", 1), ("mend", 2), ("mend --json", 2), ("match none.mtx --json", 1)] {
            let (code, out, _) = shell(&format!("$SUONTARVI {words} {stream}"));
            assert_eq!((code, out.as_str()), (Some(status), ""), "{words} {stream}");
        }
        let (code, out, _) = shell(&format!("$SUONTARVI match $WEEK {stream}"));
        assert_eq!((code, out), (Some(0), answer(&["match", WEEK])), "{stream}");
    }
}

#[test]
fn a_standard_output_that_takes_nothing() {
    for (stream, reason) in
        [(">&-", "it is closed"), ("1</dev/null", "Bad file descriptor"), (">/dev/full", "No space left on device")]
    {
        for words in ["match $WEEK", "scale $WEEK", "--help", "--version", "row $WEEK 1", "picture $WEEK -"] {
            let (code, out, said) = shell(&format!("$SUONTARVI {words} {stream}"));
            let expected = format!("suontarvi: standard output could not be written: {reason}\n");
            assert_eq!((code, out.as_str(), said), (Some(1), "", expected), "{words} {stream}");
        }
        let (code, _, said) = shell(&format!("$SUONTARVI match $WEEK --json {stream}"));
        assert!(code == Some(1) && said.contains(&format!("could not be written: {reason}\", ")), "{said}");
        // with a file of its own it has no need of it
        let (code, _, said) = shell(&format!("$SUONTARVI match $WEEK -o closed.out {stream}"));
        assert_eq!((code, said.as_str()), (Some(0), ""), "{stream}");
        assert_eq!(fs::read_to_string(path("closed.out")).unwrap(), answer(&["match", WEEK]));
    }
    // what Rust and other languages open as a null device is no closed stream
    let (code, _, said) = shell("$SUONTARVI match $WEEK 1<>/dev/null");
    assert_eq!((code, said.as_str()), (Some(0), ""));
}

#[test]
fn a_file_that_takes_nothing() {
    for words in ["match $WEEK -o /dev/full", "sheet write $WEEK /dev/full", "picture $WEEK /dev/full"] {
        let (code, out, said) = shell(&format!("$SUONTARVI {words}"));
        let expected = "suontarvi: /dev/full: the file could not be written: No space left on device\n";
        assert_eq!((code, out.as_str(), said.as_str()), (Some(1), "", expected), "{words}");
    }
}

/// What was there stays, and nothing else is left. The limit is 1 KiB.
#[test]
fn a_file_that_takes_a_part() {
    let folder = folder("part");
    fs::write(folder.join("old"), "old").unwrap();
    for words in ["picture $WEEK part/old", "picture $WEEK part/new", "view $WEEK part/old"] {
        let (code, out, said) = shell(&format!("trap '' XFSZ; ulimit -f 1; $SUONTARVI {words}"));
        let name = words.rsplit(' ').next().unwrap();
        let expected = format!("suontarvi: {name}: the file could not be written: File too large\n");
        assert_eq!((code, out.as_str(), said), (Some(1), "", expected), "{words}");
        assert_eq!(names(&folder), ["old"], "{words}");
        assert_eq!(fs::read(folder.join("old")).unwrap(), b"old", "{words}");
    }
}

/// Its permissions stay, and a link stays one.
#[test]
fn a_file_that_is_replaced() {
    let folder = folder("replaced");
    let (old, link) = (folder.join("old"), folder.join("link"));
    fs::write(&old, "old").unwrap();
    fs::set_permissions(&old, Permissions::from_mode(0o640)).unwrap();
    symlink("old", &link).unwrap();
    for file in [&old, &link] {
        fs::write(file, "old").unwrap();
        answer(&["match", WEEK, "-o", file.to_str().unwrap()]);
        assert_eq!(fs::read_to_string(&old).unwrap(), answer(&["match", WEEK]));
        assert_eq!(fs::metadata(&old).unwrap().permissions().mode() & 0o777, 0o640);
        assert!(fs::symlink_metadata(&link).unwrap().is_symlink());
        assert_eq!(names(&folder), ["link", "old"]);
    }
    // the gate refuses links below the checkout
    fs::remove_file(link).unwrap();
}

#[test]
fn a_pipe_that_nobody_reads() {
    for words in [&["match", "-"][..], &["match", "-", "--json"], &["scale", "-"], &["sheet", "write", "-", "-"]] {
        let mut child = Command::new(TOOL)
            .args(words)
            .stdin(Stdio::piped())
            .stdout(Stdio::piped())
            .stderr(Stdio::piped())
            .spawn()
            .unwrap();
        drop(child.stdout.take());
        child.stdin.take().unwrap().write_all(&fs::read(WEEK).unwrap()).unwrap();
        let output = child.wait_with_output().unwrap();
        assert_eq!((output.status.code(), output.stderr.len()), (Some(1), 0), "{words:?}");
    }
}

#[test]
fn a_standard_input_that_gives_nothing() {
    let (code, _, said) = shell("$SUONTARVI match - <&-");
    assert_eq!((code, said.as_str()), (Some(1), "suontarvi: -: standard input could not be read: it is closed\n"));
    let (code, _, said) = shell("$SUONTARVI match - 0>/dev/null");
    assert_eq!(code, Some(1));
    assert!(said.contains("-: standard input could not be read: Bad file descriptor"), "{said}");
    let (code, _, said) = shell("$SUONTARVI match - </dev/null");
    assert_eq!(code, Some(1));
    assert!(said.contains("-, line 1: the file is empty (refused with 20, BANNER)"), "{said}");
    let folder = fault(&["apply", WEEK, "-o", path("side.mtx").to_str().unwrap(), "--rhs", "/"], 1);
    assert!(folder.contains("/: the file could not be read: Is a directory"), "{folder}");
    let (code, _, said) = shell("$SUONTARVI match /dev/zero");
    assert_eq!(code, Some(1));
    assert!(said.contains("/dev/zero: the file has more than 128 MiB"), "{said}");
}

#[test]
fn standard_output_by_its_name() {
    assert_eq!(answer(&["match", WEEK, "-o", "-"]), answer(&["match", WEEK]));
    assert_eq!(answer(&["row", WEEK, "1", "--out=-"]), answer(&["row", WEEK, "1"]));
    let (sheet, svg) = (path("dash.sheet"), path("dash.svg"));
    answer(&["sheet", "write", WEEK, sheet.to_str().unwrap()]);
    answer(&["picture", WEEK, svg.to_str().unwrap()]);
    let bytes = |words: &[&str]| Command::new(TOOL).args(words).output().unwrap().stdout;
    assert_eq!(bytes(&["sheet", "write", WEEK, "-"]), fs::read(&sheet).unwrap());
    assert_eq!(bytes(&["sheet", "canonical", sheet.to_str().unwrap(), "-"]), fs::read(&sheet).unwrap());
    assert_eq!(bytes(&["picture", WEEK, "-"]), fs::read(&svg).unwrap());
    let (code, out, _) = shell("$SUONTARVI sheet write $WEEK - | $SUONTARVI check $WEEK -");
    assert_eq!((code, out.lines().count()), (Some(0), 2));
    assert!(!std::path::Path::new("-").exists() && !path("-").exists());
    // two things do not fit on one stream
    assert!(fault(&["picture", WEEK, "-", "--json"], 2).contains("both a file and the object of --json"));
    assert!(fault(&["check", "-", "-"], 2).contains("standard input cannot be both the matrix and the sheet"));
    // a file whose name begins so
    let named = file("-dash.mtx", fs::read(WEEK).unwrap());
    assert!(named.ends_with("-dash.mtx"));
    let (code, out, _) = shell("$SUONTARVI match -- -dash.mtx");
    assert_eq!((code, out), (Some(0), answer(&["match", WEEK])));
}
