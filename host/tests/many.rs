//! Many files: several, a folder, refused ones among them; gzip and Rutherford–Boeing files.

mod common;

use std::fs;
use std::path::{Path, PathBuf};
use std::process::Command;

use common::{WEEK, answer, fault, folder, names, path, run, shell};

/// A diagonal matrix with one more entry.
fn matrix(n: usize) -> String {
    let mut text = format!("%%MatrixMarket matrix coordinate real general\n{n} {n} {}\n", n + 1);
    (1..=n).for_each(|k| text += &format!("{k} {k} {}\n", k as f64 * 1e3));
    text + &format!("{n} 1 2e9\n")
}

/// Status, lines of standard output, and standard error.
fn batch(words: &[&str]) -> (i32, Vec<String>, String) {
    let output = run(words);
    let lines = String::from_utf8(output.stdout).unwrap().lines().map(String::from).collect();
    (output.status.code().unwrap(), lines, String::from_utf8(output.stderr).unwrap())
}

fn text(path: &Path) -> &str {
    path.to_str().unwrap()
}

/// Five matrices of 1 to 5 columns and one that is none.
fn six(name: &str) -> PathBuf {
    let folder = folder(name);
    for n in 1..=5 {
        fs::write(folder.join(format!("m{n}.mtx")), matrix(n)).unwrap();
    }
    fs::write(folder.join("m3bad.mtx"), "nothing\n").unwrap();
    fs::write(folder.join("notes.txt"), "not looked at\n").unwrap();
    folder
}

#[test]
fn a_folder_goes_on_behind_a_bad_file() {
    let (input, out) = (six("six"), folder("six-out"));
    for jobs in ["1", "2", "7"] {
        let (status, lines, said) = batch(&["match", text(&input), "--out-dir", text(&out), "--jobs", jobs]);
        assert_eq!((status, lines.len()), (1, 0), "{said}");
        let said: Vec<&str> = said.lines().collect();
        assert!(said[0].starts_with("suontarvi: ") && said[0].contains("m3bad.mtx, line 1: the first line is not"));
        assert!(said.len() == 2 && said[1].starts_with("6 files, 1 refused, "), "{said:?}");
        let wanted: Vec<String> = (1..=5).map(|n| format!("m{n}.perm.mtx")).collect();
        assert_eq!(names(&out), wanted);
        for n in 1..=5 {
            let alone = answer(&["match", text(&input.join(format!("m{n}.mtx")))]);
            assert_eq!(fs::read_to_string(out.join(format!("m{n}.perm.mtx"))).unwrap(), alone);
        }
    }
    fs::remove_file(input.join("m3bad.mtx")).unwrap();
    let (status, _, said) = batch(&["match", text(&input), "--out-dir", text(&out)]);
    assert!(status == 0 && said.starts_with("5 files, 0 refused, "), "{said}");
}

#[test]
fn lines_of_json_stand_in_the_order_of_the_files() {
    let (input, out) = (six("lines"), folder("lines-out"));
    let (status, lines, said) = batch(&["match", text(&input), "--json", "--jobs", "5"]);
    assert_eq!((status, lines.len()), (1, 6));
    assert!(said.starts_with("{\"files\": 6, \"refused\": 1, \"seconds\": ") && said.lines().count() == 1, "{said}");
    for (line, name) in lines.iter().zip(["m1", "m2", "m3", "m3bad", "m4", "m5"]) {
        assert!(line.starts_with("{\"file\": \"") && line.contains(&format!("{name}.mtx\"")), "{line}");
        assert_eq!(line.contains("\"error\": {\"status\": 1"), name == "m3bad");
        assert_eq!(line.contains("\"rows\": ["), name != "m3bad");
    }
    // with a folder the answers are there
    let (_, lines, _) = batch(&["scale", text(&input), "--json", "--out-dir", text(&out), "--rule", "whole"]);
    assert!(lines[1].contains("\"out\": \"") && lines[1].contains("m2.factors.mtx") && !lines[1].contains('['));
    assert!(lines[1].contains("\"matched\": 2, \"complete\": true, \"rule\": \"whole\"}"), "{}", lines[1]);
    assert!(lines[3].contains("\"name\": \"BANNER\""));
    let several = [text(&input.join("m5.mtx")), text(&input.join("m1.mtx"))].map(String::from);
    let (status, lines, _) = batch(&["row", &several[0], &several[1], "1", "--json"]);
    assert!(status == 0 && lines[0].contains("\"values\": [1000]") && lines[1].contains("m1.mtx"), "{lines:?}");
}

#[test]
fn every_command_takes_a_folder() {
    let (input, out) = (six("every"), folder("every-out"));
    fs::remove_file(input.join("m3bad.mtx")).unwrap();
    let (input, out) = (text(&input), text(&out));
    for (words, ending) in [
        (&["match", input][..], "perm.mtx"),
        (&["scale", input, "--rule", "natural"], "factors.mtx"),
        (&["sheet", "write", input], "sheet"),
        (&["row", input, "1"], "row.mtx"),
        (&["picture", input], "svg"),
        (&["view", input], "html"),
    ] {
        let (status, _, said) = batch(&[words, &["--out-dir", out]].concat());
        assert!(status == 0 && said.starts_with("5 files, 0 refused"), "{words:?}: {said}");
        for n in 1..=5 {
            assert!(fs::metadata(format!("{out}/m{n}.{ending}")).unwrap().len() > 1, "{words:?}");
        }
    }
    let (status, lines, said) = batch(&["check", input, "--sheets", out]);
    let complete = "m5.mtx: matched 5 of 5: complete, of largest product by whole logarithms, and the duals show it";
    assert!(status == 0 && lines.len() == 10 && lines[8].ends_with(complete), "{lines:?} {said}");
    assert!(lines[9].contains("m5.mtx: within a factor of 1"), "{lines:?}");
    let (status, lines, _) = batch(&["sheet", "canonical", out]);
    assert!(status == 0 && lines.len() == 5 && lines[0].ends_with("m1.sheet: matched 1 of 1, canonical"), "{lines:?}");
    let again = folder("every-again");
    let (status, _, _) = batch(&["sheet", "canonical", out, "--out-dir", text(&again)]);
    assert_eq!((status, fs::read(again.join("m4.sheet")).unwrap()), (0, fs::read(format!("{out}/m4.sheet")).unwrap()));
    let (status, lines, _) = batch(&["sheet", "read", out, "--json"]);
    assert!(status == 0 && lines.len() == 5 && lines[2].contains("\"matched\": 3"));
}

#[test]
fn apply_and_restore_of_a_folder() {
    let (input, there, back) = (six("there"), folder("there-out"), folder("there-back"));
    fs::remove_file(input.join("m3bad.mtx")).unwrap();
    let (status, _, said) = batch(&["apply", text(&input), "--out-dir", text(&there), "--rule", "whole"]);
    assert!(status == 0 && names(&there).len() == 15, "{said}");
    let (status, _, said) = batch(&["restore", text(&there), "--out-dir", text(&back)]);
    assert!(status == 0 && names(&back).len() == 5, "{said}");
    for n in 1..=5 {
        let lines = |file: PathBuf| {
            let text = fs::read_to_string(file).unwrap();
            let entries = text.lines().filter(|line| !line.starts_with('%')).skip(1);
            let number = |word: &str| word.parse::<f64>().unwrap().to_bits();
            let mut entries: Vec<Vec<u64>> = entries.map(|line| line.split(' ').map(number).collect()).collect();
            entries.sort();
            entries
        };
        let name = format!("m{n}.mtx");
        // of one column two lines state one place
        if n > 1 {
            assert_eq!(lines(input.join(&name)), lines(back.join(&name)));
        }
    }
}

#[test]
fn nothing_is_written_over() {
    let input = six("over");
    let twin = folder("over-twin");
    fs::write(twin.join("m2.mtx"), matrix(9)).unwrap();
    let out = folder("over-out");
    let two = [input.join("m2.mtx"), twin.join("m2.mtx")];
    let (status, _, said) = batch(&["match", text(&two[0]), text(&two[1]), "--out-dir", text(&out)]);
    assert!(status == 1 && said.contains("would overwrite that of") && said.contains("2 files, 1 refused"));
    assert_eq!(fs::read_to_string(out.join("m2.perm.mtx")).unwrap(), answer(&["match", text(&two[0])]));
    // into the folder that is read
    let before = fs::read(input.join("m2.mtx")).unwrap();
    let (status, _, said) = batch(&["apply", text(&input), "--out-dir", text(&input)]);
    assert!(status == 1 && said.matches("would overwrite an input file").count() == 6, "{said}");
    assert_eq!(fs::read(input.join("m2.mtx")).unwrap(), before);
    // by another name
    let linked = folder("over-linked");
    std::os::unix::fs::symlink(input.join("m2.mtx"), linked.join("m1.perm.mtx")).unwrap();
    let one = input.join("m1.mtx");
    let (status, _, said) = batch(&["match", text(&one), text(&two[0]), "--out-dir", text(&linked)]);
    assert!(status == 1 && said.contains("m1.mtx: its output would overwrite an input file"), "{said}");
    assert_eq!(fs::read(input.join("m2.mtx")).unwrap(), before);
    std::os::unix::fs::symlink("m2.row.mtx", linked.join("m1.row.mtx")).unwrap();
    fs::write(linked.join("m2.row.mtx"), "").unwrap();
    let (status, _, said) = batch(&["row", text(&one), text(&two[0]), "1", "--out-dir", text(&linked)]);
    assert!(status == 1 && said.contains("m2.mtx: its output would overwrite that of"), "{said}");
    // an input that is not there is not made on the way
    let missing = linked.join("m3.row.mtx");
    let three = input.join("m3.mtx");
    let (status, _, said) = batch(&["row", text(&three), text(&missing), "1", "--out-dir", text(&linked)]);
    assert!(status == 1 && said.contains("m3.mtx: its output would overwrite an input file"), "{said}");
    assert!(!missing.exists());
    // answers beside the matrices are not taken for matrices
    let (_, _, said) = batch(&["match", text(&input), "--out-dir", text(&input)]);
    assert!(said.ends_with(" a second\n") && said.contains("6 files, 1 refused"), "{said}");
    let (_, _, said) = batch(&["match", text(&input), "--out-dir", text(&input)]);
    assert!(said.contains("6 files, 1 refused"), "{said}");
    // the gate refuses links below the checkout
    fs::remove_dir_all(linked).unwrap();
}

/// What is written beside an answer is not written over an input or another answer, and neither is what is read beside
/// an input.
#[test]
fn nothing_beside_is_written_over() {
    let (input, out) = (folder("beside"), folder("beside-out"));
    let [one, other] = ["x.rb", "x.perm.mtx"].map(|name| {
        fs::write(input.join(name), matrix(3)).unwrap();
        input.join(name)
    });
    let (status, _, said) = batch(&["apply", text(&one), text(&other), "--out-dir", text(&input)]);
    assert!(status == 1 && said.matches("its output would overwrite an input file").count() == 2, "{said}");
    assert_eq!(fs::read_to_string(&other).unwrap(), matrix(3));
    for (first, second) in [(&one, &other), (&other, &one)] {
        let (status, _, said) = batch(&["apply", text(first), text(second), "--out-dir", text(&out)]);
        let overwrites = format!("{}: its output would overwrite that of {}", text(second), text(first));
        assert!(status == 1 && said.contains(&overwrites) && said.contains("2 files, 1 refused"), "{said}");
    }
    let there = folder("beside-there");
    let (status, _, said) = batch(&["apply", text(&one), "--out-dir", text(&there)]);
    assert!(status == 0 && names(&there) == ["x.factors.mtx", "x.mtx", "x.perm.mtx"], "{said}");
    let factors = fs::read(there.join("x.factors.mtx")).unwrap();
    let named = input.join("x.factors.mtx");
    fs::write(&named, matrix(3)).unwrap();
    let (status, _, said) = batch(&["restore", text(&there.join("x.mtx")), text(&named), "--out-dir", text(&there)]);
    assert!(status == 1 && said.matches("its output would overwrite an input file").count() == 2, "{said}");
    assert_eq!(fs::read(there.join("x.factors.mtx")).unwrap(), factors);
}

#[test]
fn wrong_calls_of_many_files() {
    let input = six("wrong");
    let input = text(&input);
    for (words, said) in [
        (&["match", WEEK, WEEK][..], "match of several files needs --out-dir, or --json for lines on standard output"),
        (&["match", input], "match of several files needs --out-dir, or --json"),
        (&["match", input, "-o", "x"], "match of several files takes no --out; answers go to --out-dir"),
        (&["match", "-", WEEK, "--json"], "match of several files cannot read standard input"),
        (&["view", input], "view of several files needs --out-dir, the folder of what is made"),
        (&["view", "a.mtx", "b.mtx"], "view of several files needs --out-dir"),
        (&["check", input], "check of several files needs --sheets"),
        (&["match", WEEK, "--sheets", "x"], "match takes no --sheets"),
        (&["match", "--out-dir", "x"], "match needs FILE.mtx"),
        (&["apply", input, "--out-dir", "x", "--rhs", "b"], "apply of several files takes no --rhs"),
        (&["apply", WEEK, WEEK], "apply of several files needs --out-dir, the folder of what is made"),
        (&["apply", WEEK, WEEK, "--json"], "apply of several files needs --out-dir, the folder of what is made"),
        (&["match", WEEK, "--jobs", "0", "--json"], "--jobs is a number from 1 to 1024, and not 0"),
        (&["match", WEEK, "--jobs", "x", "--json"], "--jobs is a number from 1 to 1024, and not x"),
    ] {
        let words: Vec<&str> = words.to_vec();
        let sentence = match words.contains(&"--json") {
            true => fault(&words, 2).replace("\\\"", "\""),
            false => fault(&words, 2),
        };
        assert!(sentence.contains(said), "{sentence}");
    }
    let empty = folder("wrong-empty");
    assert!(fault(&["match", text(&empty), "--json"], 1).contains("the folder has no file that ends in .mtx"));
    let file = path("wrong-file");
    fs::write(&file, "").unwrap();
    let inside = file.join("below");
    assert!(fault(&["match", input, "--out-dir", text(&inside)], 1).contains("the folder could not be made: "));
}

/// Nobody reads on: the batch stops with status 1, without a word.
#[test]
fn a_reader_that_leaves() {
    let input = folder("leaves");
    for n in 0..300 {
        fs::write(input.join(format!("{n:03}.mtx")), matrix(60)).unwrap();
    }
    let line = format!("($SUONTARVI match {} --json; echo $? >&2) | head -1 | cut -c1-8", text(&input));
    let (status, stdout, stderr) = shell(&line);
    assert_eq!((status, stdout.as_str(), stderr.as_str()), (Some(0), "{\"file\":\n", "1\n"));
    let (_, _, stderr) = shell(&format!("$SUONTARVI match {} --json > /dev/full; echo $? >&2", text(&input)));
    assert!(
        stderr.contains("standard output could not be written: No space left on device") && stderr.ends_with("1\n")
    );
}

/// A terminal gets a bar once a run takes longer: here the second file comes late, by a pipe. `script` of util-linux is
/// a terminal.
#[test]
fn a_bar_on_a_terminal() {
    if shell("command -v script > /dev/null").0 != Some(0) {
        println!("not tried: `script` is not there");
        return;
    }
    let (status, stdout, stderr) = shell(
        "rm -rf bar bar-out && mkdir bar && cp $WEEK bar/1.mtx && cp $WEEK bar/3.mtx && mkfifo bar/2.mtx && \
        { (sleep 1; cat $WEEK > bar/2.mtx) & } && \
        script -qec \"$SUONTARVI match bar/1.mtx bar/2.mtx bar/3.mtx --out-dir bar-out --jobs 1\" /dev/null",
    );
    assert_eq!(status, Some(0), "{stdout}{stderr}");
    assert!(stdout.contains("3 files, 0 refused, "), "{stdout}");
    assert!(stdout.contains(" of 3 files, ") && stdout.contains(" left"), "{stdout}");
}

/// Stacks that no memory holds: no thread begins, which is a fault of the run, not a panic.
#[test]
fn threads_that_cannot_be_made() {
    let (one, more) = (folder("threads"), folder("threads-out"));
    let (status, _, said) = shell(&format!("gzip -c $WEEK > {}/week.mtx.gz", text(&one)));
    assert_eq!(status, Some(0), "{said}");
    let large = format!("RUST_MIN_STACK={} $SUONTARVI match", 1u64 << 60);
    let (status, stdout, said) = shell(&format!("{large} $WEEK $WEEK --json --jobs 2"));
    assert!(said.contains("\"sentence\": \"no thread could be made: ") && said.lines().count() == 1, "{said}");
    assert_eq!((status, stdout.as_str()), (Some(1), ""));
    let (status, _, said) = shell(&format!("{large} $WEEK --out-dir {}", text(&more)));
    assert!(status == Some(1) && said.starts_with("suontarvi: no thread could be made: "), "{said}");
    let (status, stdout, said) = shell(&format!("{large} {}/week.mtx.gz", text(&one)));
    assert!(said.contains("week.mtx.gz: no thread could be made: ") && !said.contains("panicked"), "{said}");
    assert_eq!((status, stdout.as_str()), (Some(1), ""));
}

#[test]
fn compressed_files_are_unpacked() {
    let input = folder("packed");
    fs::copy(WEEK, input.join("week.mtx")).unwrap();
    let packed = input.join("week.mtx.gz");
    let done = Command::new("gzip").arg("-k").arg(input.join("week.mtx")).status().unwrap();
    assert!(done.success() && fs::read(&packed).unwrap().starts_with(&[0x1f, 0x8b]));
    assert_eq!(answer(&["match", text(&packed)]), answer(&["match", WEEK]));
    let (_, stdout, _) = shell(&format!("$SUONTARVI match - < {}", text(&packed)));
    assert_eq!(stdout, answer(&["match", WEEK]));
    let bytes = fs::read(&packed).unwrap();
    fs::write(&packed, &bytes[..bytes.len() - 9]).unwrap();
    assert!(fault(&["match", text(&packed)], 1).contains("the file is compressed by gzip, and it is damaged"));
    let (_, _, stderr) = shell(&format!("PATH=/nowhere $SUONTARVI match {}", text(&packed)));
    assert!(stderr.contains("the program gzip could not be run: No such file or directory"), "{stderr}");
    // more than a matrix can have, from little
    let bomb = input.join("bomb.mtx.gz");
    let (status, _, _) = shell(&format!("head -c 200000000 /dev/zero | gzip -1 > {}", text(&bomb)));
    assert_eq!(status, Some(0));
    assert!(fault(&["match", text(&bomb)], 1).contains("the file has more than 128 MiB"));
}

/// The same matrix in both forms has the same match, and faults have the place in the file.
#[test]
fn rutherford_boeing_files_are_read() {
    let input = folder("boeing");
    let boeing = "\
a week of two days                                                      WEEK
             3             1             1             1
rua                        2             2             3             0
(3I2)           (3I1)           (3E9.2)
 1 3 4
122
 1.00E+00 2.50D+00-3.00E+00
";
    let market = "%%MatrixMarket matrix coordinate real general\n2 2 3\n1 1 1\n2 1 2.5\n2 2 -3\n";
    let [one, other] = [("x.rb", boeing), ("x.mtx", market)].map(|(name, text)| {
        fs::write(input.join(name), text).unwrap();
        input.join(name)
    });
    for command in [&["match"][..], &["scale", "--json"], &["match", "--json"]] {
        let of = |file: &Path| answer(&[command, &[text(file)]].concat());
        assert_eq!(of(&one), of(&other));
    }
    let bad = input.join("bad.rb");
    fs::write(&bad, boeing.replace("122", "132")).unwrap();
    let sentence = fault(&["match", text(&bad)], 1);
    assert!(sentence.contains("bad.rb, line 6: the row 3 is not within 1 to 2 (refused with 5, INDEX_RANGE)"));
    let huge = input.join("huge.rb");
    fs::write(&huge, boeing.replace(" 2.50D+00", "2.5D+0999")).unwrap();
    assert!(fault(&["match", text(&huge)], 1).contains("line 7: the value 2.5e999 is beyond the range of doubles"));
}
