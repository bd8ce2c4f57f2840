//! What the tool says: of files that are something else, of odd words in them, and of each misuse.

mod common;

use common::{WEEK, answer, fault, file, path};

const REAL: &str = "%%MatrixMarket matrix coordinate real general\n";
const INTEGER: &str = "%%MatrixMarket matrix coordinate integer general\n";

#[test]
fn files_that_are_something_else() {
    let cases: [(&str, &[u8], &str); 8] = [
        ("empty", b"", "the file is empty"),
        ("bzip2", b"BZh91AY", "the file is compressed by bzip2"),
        ("xz", b"\xfd7zXZ\x00\x00", "the file is compressed by xz"),
        ("zip", b"PK\x03\x04\x14", "the file is a zip archive"),
        ("mark", b"\xef\xbb\xbf%%MatrixMarket matrix", "the file begins with a byte order mark"),
        ("wide", b"\xff\xfe%\x00%\x00", "the file is UTF-16 text"),
        ("page", b"<!DOCTYPE html>", "the file is a web page"),
        ("other", b"1 2 3\n", "the first line is not a banner"),
    ];
    for (name, bytes, said) in cases {
        let file = file(&format!("kind-{name}.mtx"), bytes);
        for words in [&["match", &file][..], &["scale", &file], &["check", &file, "none"]] {
            let sentence = fault(words, 1);
            assert!(sentence.contains(&format!("line 1: {said}")), "{sentence}");
            assert!(sentence.ends_with(" (refused with 20, BANNER)\n"), "{sentence}");
        }
    }
}

#[test]
fn words_of_files() {
    let long = "9".repeat(23);
    let endless = format!("1{}", "0".repeat(500));
    let cases = [
        (REAL, "2 2 1\n-1 1 1\n", "the row -1 is not within 1 to 2 (refused with 5, INDEX_RANGE)"),
        (REAL, "2 2 1\n+3 1 1\n", "the row +3 is not within 1 to 2 (refused with 5, INDEX_RANGE)"),
        (REAL, "2 2 1\n+1 1 1\n", "the row +1 is not written in digits alone (refused with 23, ENTRY_LINE)"),
        (REAL, "2 2 1\n1 +2 1\n", "the column +2 is not written in digits alone (refused with 23, ENTRY_LINE)"),
        (REAL, "2 2 1\n1.5 1 1\n", "the row 1.5 is not a whole number (refused with 23, ENTRY_LINE)"),
        (REAL, "2 2 1\n1 x 1\n", "the column x is not a number (refused with 23, ENTRY_LINE)"),
        (REAL, "0 0 0\n1 1 1\n", "a line after the 0 entries of the size line (refused with 24, ENTRY_COUNT)"),
        (REAL, &format!("{long} {long} 1\n"), &format!("{long} columns are more than 4096 (refused with 1")),
        (REAL, &format!("2 2 {long}\n"), &format!("{long} entries are more than 262144 (refused with 2")),
        (REAL, &format!("2 {long} 1\n"), &format!("the matrix is not square but 2 by {long} (refused with 21")),
        (REAL, &format!("2 2 1\n{long} 1 1\n"), &format!("the row {long} is not within 1 to 2")),
        (REAL, &format!("2 2 1\n{endless} 1 1\n"), &format!("the row 1{}... (501 characters) is not", "0".repeat(39))),
        (REAL, "2 2 1\n1 1 \u{1b}[2J\u{7}\n", "the value \\u{1b}[2J\\u{7} is not a number (refused with 23"),
        (REAL, "2 2 1\n1 1 1e-400\n", "the value 1e-400 is below the range of doubles and would be a zero (refused"),
        (REAL, "2 2 1\n1 1 -0.00001E-320\n", "the value -0.00001E-320 is below the range of doubles"),
        (
            REAL,
            "2 2 1\n1 1 1e400\n",
            "the value 1e400 is beyond the range of doubles (refused with 9, VALUE_NOT_FINITE)",
        ),
        (REAL, "2 2 1\n1 1 -inf\n", "the value -inf is infinite (refused with 9, VALUE_NOT_FINITE)"),
        (REAL, "2 2 1\n1 1 nan\n", "the value nan is a NaN (refused with 9, VALUE_NOT_FINITE)"),
        (INTEGER, "2 2 1\n1 1 9007199254740993\n", "the value 9007199254740993 is above 2^53 in size, where"),
        (INTEGER, "2 2 1\n1 1 -99999999999999999999\n", "the value -99999999999999999999 is above 2^53 in size"),
        (INTEGER, "2 2 1\n1 1 1e3\n", "the value 1e3 is not an integer (refused with 23, ENTRY_LINE)"),
    ];
    for (at, (banner, rest, said)) in cases.into_iter().enumerate() {
        let file = file(&format!("word-{at}.mtx"), format!("{banner}{rest}"));
        let sentence = fault(&["match", &file], 1);
        assert!(sentence.contains(&format!(": {said}")), "{sentence}");
        assert!(!sentence.trim_end().chars().any(char::is_control) && sentence.len() < 500, "{sentence:?}");
    }
}

/// A zero that says so, the least double and the largest integer are what they are.
#[test]
fn numbers_at_the_ends() {
    let zeros = file("zeros.mtx", format!("{REAL}2 2 3\n1 1 0e-999\n2 2 5e-324\n1 2 -0.0\n"));
    assert!(answer(&["match", &zeros]).contains("matched 1 of 2"));
    let large = file("large-integer.mtx", format!("{INTEGER}1 1 1\n1 1 -9007199254740992\n"));
    assert!(answer(&["match", &large]).contains("matched 1 of 1"));
}

#[test]
fn a_refusal_says_which_of_its_cases_it_is() {
    let matrix = file("cases.mtx", format!("{REAL}2 2 2\n1 1 1\n2 2 1\n"));
    // column, bits, row
    for (at, (records, said)) in [
        (
            &[0, 0, 1, 0, 0][..],
            "column 2: the column has no row, and another matching has more pairs (refused with 33, NOT_LARGEST)",
        ),
        (&[0, 0, 1, 0, 0, 1, 0, 1, 0, 0], "row 1, column 2: the row has two columns (refused with 30"),
        (&[0, 0, 1, 1, 0, 1, 0, 1, 0, 0], "row 2, column 1: the pair is not an entry of the matrix (refused with 30"),
    ]
    .into_iter()
    .enumerate()
    {
        let sheet = file(&format!("cases-{at}.sheet"), [&[2, 0], records].concat());
        let sentence = fault(&["check", &matrix, &sheet], 1);
        assert!(sentence.contains(said) && !sentence.contains(" or "), "{sentence}");
    }
    let sum = file("cases-sum.mtx", format!("{REAL}1 1 2\n1 1 1e308\n1 1 1e308\n"));
    for rule in ["natural", "whole"] {
        let sentence = fault(&["scale", &sum, "--rule", rule], 1);
        assert!(
            sentence.contains("line 3, row 1, column 1: the sum of the lines of this place is beyond"),
            "{sentence}"
        );
    }
}

#[test]
fn each_misuse_has_its_sentence() {
    let cases: [(&[&str], &str); 19] = [
        (&[], "no command is given"),
        (&["mend", WEEK], "there is no command mend"),
        (&["match"], "match needs FILE.mtx"),
        (&["check", WEEK, "x", "y"], "check has one argument too many: y"),
        (&["match", ""], "an argument of match is empty"),
        (&["sheet"], "sheet needs one of write, read, canonical"),
        (&["sheet", "mend"], "sheet needs one of write, read, canonical, not mend"),
        (&["sheet", "write", WEEK], "sheet write needs SHEET"),
        (&["sheet", "read", WEEK, "--rule", "whole"], "sheet read takes no --rule"),
        (&["picture", WEEK, "x.svg", "-o", "y"], "picture takes no --out"),
        (&["scale", WEEK, "--rule", "round"], "the rule is natural, flat or whole, and not round"),
        (&["scale", WEEK, "--rule"], "--rule has no value"),
        (&["scale", WEEK, "--rule=flat", "--rule=flat"], "--rule is given twice"),
        (&["scale", WEEK, "-o"], "-o has no value"),
        (&["scale", WEEK, "--loud"], "there is no option --loud"),
        (&["scale", WEEK, "--json=yes"], "--json takes no value"),
        (&["match", "--help=yes"], "--help takes no value"),
        (&["check", WEEK], "check needs SHEET"),
        (&["sheet", "canonical", WEEK, "x", "-o", "y"], "sheet canonical takes OUT or --out, and not both"),
    ];
    for (words, said) in cases {
        let sentence = fault(words, 2);
        assert!(sentence.starts_with(&format!("suontarvi: {said}\nusage: suontarvi match FILE.mtx")), "{sentence}");
        let with_json = [words, &["--json"]].concat();
        if words.last().is_some_and(|last| ["--rule", "-o"].contains(last)) {
            continue;
        }
        let json = fault(&with_json, 2);
        let said = said.replace('"', "\\\"");
        assert!(json.starts_with("{\"error\": {\"status\": 2, \"file\": null, \"place\": null, "), "{json}");
        assert!(json.contains(&format!("\"sentence\": \"{said}\"")) && json.lines().count() == 1, "{json}");
    }
    // behind -- it is a word
    assert!(fault(&["match", "--", "--json"], 1).starts_with("suontarvi: --json: the file could not be read"));
}

/// Where products are nearly equal, whole logarithms see ties and natural ones do not.
#[test]
fn match_and_scale_agree() {
    let near = file("near.mtx", format!("{REAL}2 2 4\n1 1 1.0000001\n2 1 1\n1 2 1\n2 2 1\n"));
    let rows = |text: &str| text.lines().filter(|line| !line.starts_with('%')).skip(1).map(String::from).collect();
    let matched = |rule: &str| -> Vec<String> { rows(&answer(&["match", &near, "--rule", rule])) };
    let scaled = |rule: &str| -> Vec<String> {
        let all: Vec<String> = rows(&answer(&["scale", &near, "--rule", rule]));
        all[4..].to_vec()
    };
    for rule in ["natural", "identity", "whole"] {
        assert_eq!(matched(rule), scaled(rule), "{rule}");
    }
    assert_ne!(matched("natural"), matched("whole"));
    assert_eq!(answer(&["match", &near]), answer(&["match", &near, "--rule", "whole"]));
    for rule in ["natural", "whole"] {
        let json = |command: &str| answer(&[command, &near, "--json", "--rule", rule]);
        let rows = |text: String| text.split("\"rows\": ").nth(1).unwrap().split(']').next().unwrap().to_string();
        assert_eq!(rows(json("match")), rows(json("scale")));
        assert!(json("match").contains(&format!("\"rule\": \"{rule}\"")));
    }
    assert!(fault(&["match", &near, "--rule", "flat"], 1).contains("the rule flat is for symmetric files"));
}

/// What the help says of the ends of the range.
#[test]
fn factors_are_held_at_the_extremes() {
    let ends = file("ends.mtx", format!("{REAL}2 2 4\n1 1 1e308\n2 1 1e-308\n1 2 1e-308\n2 2 1e-308\n"));
    let text = answer(&["scale", &ends]);
    let numbers: Vec<f64> =
        text.lines().filter(|line| !line.starts_with('%')).skip(1).map(|line| line.parse().unwrap()).collect();
    assert_eq!(numbers[4..], [1.0, 2.0]);
    let matched = [numbers[0] * 1e308 * numbers[2], numbers[1] * (1e-308 * numbers[3])];
    assert!(matched.iter().any(|value| format!("{value:.3}") == "1.217"), "{matched:?}");
    let help = answer(&["--help"]);
    assert!(help.contains("1.217") && help.contains("e^-709 and e^709") && help.contains("identity is a synonym"));
    assert!(help.lines().all(|line| line.len() <= 120));
    // a picture of it loses nothing on the way
    answer(&["picture", &ends, path("ends.svg").to_str().unwrap()]);
}
