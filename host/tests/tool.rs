//! The tool on files, good and bad: what it prints, what it writes, its status.

mod common;

use std::fs;
use std::process::Command;

use common::{WEEK, answer, fault, file, path};

/// A symmetric matrix whose complete match leaves the diagonal.
const SYMMETRIC: &str = "%%MatrixMarket matrix coordinate real symmetric\n3 3 4\n1 1 1e-3\n2 1 4\n2 2 1e-3\n3 3 -9\n";

/// Rows 2 and 3 have entries in column 1 alone.
const SINGULAR: &str = "%%MatrixMarket matrix coordinate integer symmetric\n3 3 3\n1 1 8\n2 1 -4\n3 1 2\n";

/// The values of an array, by columns.
fn array(text: &str) -> Vec<Vec<f64>> {
    let mut lines = text.lines();
    assert!(lines.next().unwrap().starts_with("%%MatrixMarket matrix array "));
    let mut numbers = lines.filter(|line| !line.starts_with('%'));
    let size: Vec<usize> = numbers.next().unwrap().split(' ').map(|word| word.parse().unwrap()).collect();
    let values: Vec<f64> = numbers.map(|line| line.parse().unwrap()).collect();
    assert_eq!(values.len(), size[0] * size[1]);
    (0..size[1]).map(|column| values[column * size[0]..][..size[0]].to_vec()).collect()
}

/// Row, column and value of each entry, from 0, both triangles.
fn entries(text: &str) -> Vec<(usize, usize, f64)> {
    let symmetric = text.lines().next().unwrap().ends_with("symmetric");
    let mut found = Vec::new();
    for line in text.lines().filter(|line| !line.starts_with('%')).skip(1) {
        let words: Vec<&str> = line.split(' ').collect();
        let (row, column): (usize, usize) = (words[0].parse().unwrap(), words[1].parse().unwrap());
        let value: f64 = words.get(2).map_or(1.0, |word| word.parse().unwrap());
        found.push((row - 1, column - 1, value));
        if symmetric && row != column {
            found.push((column - 1, row - 1, value));
        }
    }
    found
}

#[test]
fn match_of_a_file() {
    let text = answer(&["match", WEEK]);
    assert!(text.contains("% matched 7 of 7"));
    assert_eq!(array(&text), [[7.0, 2.0, 4.0, 3.0, 6.0, 5.0, 1.0]]);
    let json = answer(&["match", WEEK, "--json"]);
    assert!(json.starts_with("{\"n\": 7, \"matched\": 7, \"complete\": true, \"rule\": \"whole\", \"rows\": ["));
    assert_eq!(json.matches('{').count(), json.matches('}').count());
    let out = path("week.perm");
    assert_eq!(answer(&["match", WEEK, "-o", out.to_str().unwrap()]), "");
    assert_eq!(fs::read_to_string(out).unwrap(), text);
}

/// The factor that a certificate proves.
fn proved(text: &str) -> f64 {
    let (_, rest) = text.split_once("\n% within a factor of ").unwrap_or_else(|| panic!("{text}"));
    let (factor, rest) = rest.split_once(" of the largest product, proved: a gap of ").unwrap();
    assert!(rest.split('\n').next().unwrap().contains(" steps of 2^-"), "{text}");
    factor.parse().unwrap()
}

#[test]
fn a_match_and_its_certificate() {
    let symmetric = file("certified.mtx", SYMMETRIC);
    for (file, rules) in [(WEEK, &["natural"][..]), (&symmetric, &["natural", "flat"])] {
        for rule in rules {
            let plain = answer(&["match", file, "--rule", rule]);
            let text = answer(&["match", "--certificate", file, "--rule", rule]);
            assert!((1.0..1.0000001).contains(&proved(&text)), "{text}");
            assert!(text.contains(" in the natural logarithms as they are stored, and "), "{text}");
            assert!(text.contains(" for their rounding, measured by integers\n"), "{text}");
            // the match is the same, and the file is read as before
            let without: Vec<&str> = text.lines().filter(|line| !line.starts_with("% within")).collect();
            assert_eq!(without, plain.lines().collect::<Vec<_>>());
            let json = answer(&["match", file, "--certificate", "--json", "--rule", rule]);
            let (_, certificate) = json.split_once("\"certificate\": {\"steps\": \"").unwrap();
            assert!(certificate.contains("\", \"digits\": 4") && certificate.contains("\"factor\": \"1"), "{json}");
        }
        // whole costs have no gap
        let whole = answer(&["match", file, "--certificate"]);
        let said =
            "\n% within a factor of 1 of the largest product by whole-number logarithms, proved: a gap of 0 steps";
        assert!(whole.contains(said), "{whole}");
    }
    let singular = file("uncertified.mtx", SINGULAR);
    let text = answer(&["match", &singular, "--certificate", "--rule", "natural"]);
    let said = "\n% not complete, so that no gap is proved; no match has more pairs, proved\n% columns 2 and 3 have \
                entries only in row 1: 1 of them stays without a row\n";
    assert!(text.contains(said), "{text}");
    let json = answer(&["match", &singular, "--certificate", "--json"]);
    let shortages = "\"certificate\": {\"shortages\": [{\"columns\": [2, 3], \"rows\": [1], \"empty\": 1}]}}\n";
    assert!(json.ends_with(shortages), "{json}");
    assert!(!answer(&["match", &singular, "--json"]).contains("certificate"));
    assert!(fault(&["scale", WEEK, "--certificate"], 2).contains("scale takes no --certificate"));
    assert!(fault(&["match", WEEK, "--certificate=yes"], 2).contains("--certificate takes no value"));
    let help = answer(&["--help"]);
    assert!(help.contains("[--certificate]") && help.contains("the stored costs: the largest logarithm"));
}

#[test]
fn every_kind_of_file() {
    for (field, values) in [("real", [" 2.5", " -1e3"]), ("Integer", [" 7", " -3"]), ("PATTERN", ["", ""])] {
        for (symmetry, column) in [("general", 2), ("SYMMETRIC", 1)] {
            let [first, second] = values;
            let text = format!(
                "%%matrixMARKET matrix Coordinate {field} {symmetry}\r\n% a comment\n%\n\n 2\t2 3 \n\
                 1 1{first}\n\n2 {column}{second}\n2 {}{first}",
                3 - column
            );
            let file = file(&format!("{field}-{symmetry}.mtx"), &text);
            assert!(answer(&["match", &file]).contains("matched 2 of 2"), "{text}");
        }
    }
}

#[test]
fn an_empty_matrix_and_one_at_the_limit() {
    let empty = file("empty.mtx", "%%MatrixMarket matrix coordinate real general\n0 0 0\n");
    assert!(answer(&["match", &empty]).ends_with("\n0 1\n"));
    assert_eq!(answer(&["match", &empty, "--json"]).matches("[]").count(), 4);
    assert!(answer(&["scale", &empty]).ends_with("\n0 3\n"));
    assert!(answer(&["picture", &empty, path("empty.svg").to_str().unwrap()]).starts_with("matched 0 of 0"));
    let mut text = "%%MatrixMarket matrix coordinate pattern general\n4096 4096 262144\n".to_string();
    for at in 0..262144 {
        text += &format!("{} {}\n", (at / 64 + at % 64) % 4096 + 1, at / 64 + 1);
    }
    let large = file("large.mtx", text);
    assert!(answer(&["match", &large]).contains("matched 4096 of 4096"));
    let picture = path("large.svg");
    answer(&["picture", &large, picture.to_str().unwrap(), "--rule", "whole"]);
    assert!(fs::metadata(picture).unwrap().len() < 4_000_000);
}

#[test]
fn factors_bring_the_matched_entries_to_one() {
    let week = fs::read_to_string(WEEK).unwrap();
    let symmetric = file("factors.mtx", SYMMETRIC);
    for (file, text, rules) in [(WEEK, &week[..], &["natural"][..]), (&symmetric, SYMMETRIC, &["natural", "flat"])] {
        let rows = &array(&answer(&["match", file]))[0];
        for rule in rules {
            let [row_factors, column_factors, of_columns] = &array(&answer(&["scale", file, "--rule", rule]))[..]
            else {
                panic!("three columns");
            };
            assert_eq!(of_columns, rows);
            for (row, column, value) in entries(text) {
                let size = (row_factors[row] * value * column_factors[column]).abs();
                let matched = rows[column] as usize == row + 1;
                assert!(size < 1.0 + 1e-12 && (!matched || size > 1.0 - 1e-12), "{rule}: {row} {column} {size}");
            }
        }
    }
    for word in ["--rule=natural", "--rule=identity"] {
        assert_eq!(answer(&["scale", WEEK]), answer(&["scale", WEEK, word]));
    }
    assert!(answer(&["scale", WEEK, "--rule=identity", "--json"]).contains("\"rule\": \"natural\""));
}

#[test]
fn powers_of_two_bring_all_below_two() {
    let symmetric = file("powers.mtx", SYMMETRIC);
    for file in [WEEK, &symmetric] {
        let text = fs::read_to_string(file).unwrap();
        let exponents = array(&answer(&["scale", file, "--rule", "whole"]));
        let rows = &array(&answer(&["match", file]))[0];
        for (row, column, value) in entries(&text) {
            let size = (value * (exponents[0][row] + exponents[1][column]).exp2()).abs();
            assert!(size < 2.0 && (rows[column] as usize != row + 1 || size > 0.25));
        }
    }
}

#[test]
fn the_rules_differ_where_rows_are_unmatched() {
    let singular = file("singular.mtx", SINGULAR);
    assert!(answer(&["match", &singular]).contains("matched 2 of 3"));
    let natural = answer(&["scale", &singular, "--json"]);
    let flat = answer(&["scale", &singular, "--json", "--rule", "flat"]);
    assert!(natural.contains("\"matched\": 2") && flat.contains("\"rule\": \"flat\""));
    assert_ne!(natural.replace("natural", "flat"), flat);
}

#[test]
fn a_sheet_there_and_back() {
    let sheet = path("week.sheet");
    let sheet = sheet.to_str().unwrap();
    assert!(answer(&["sheet", "write", WEEK, sheet]).starts_with("matched 7 of 7, "));
    let read = array(&answer(&["sheet", "read", sheet]));
    assert_eq!(read.len(), 4);
    assert_eq!(read[0], array(&answer(&["match", WEEK]))[0]);
    assert!(answer(&["sheet", "read", sheet, "--json"]).contains("\"counts\": null"));
    assert_eq!(answer(&["sheet", "canonical", sheet]), "matched 7 of 7, canonical\n");
    assert!(answer(&["check", WEEK, sheet]).starts_with("matched 7 of 7: complete"));
    let other = path("week.canonical");
    let other = other.to_str().unwrap();
    assert!(answer(&["sheet", "canonical", sheet, other]).ends_with(", the same\n"));
    assert_eq!(fs::read(sheet).unwrap(), fs::read(other).unwrap());
    // an empty record and a number that is zero mean nothing
    let loose = file("loose.sheet", [2, 0, 1, 0, 0, 0, 0, 2, 0, 0, 0, 0, 0, 0, 0, 0]);
    assert!(answer(&["sheet", "canonical", &loose, other, "--json"]).contains("\"same\": false"));
    assert_eq!(fs::read(other).unwrap(), [2, 0]);
}

#[test]
fn a_row_by_the_row_index() {
    let text = answer(&["row", WEEK, "3"]);
    assert_eq!(entries(&text), [(2, 1, -6e2), (2, 2, 2e-4), (2, 3, 5.0)]);
    let symmetric = file("row.mtx", SYMMETRIC);
    assert_eq!(entries(&answer(&["row", &symmetric, "1"])), [(0, 0, 1e-3), (0, 1, 4.0)]);
    assert_eq!(answer(&["row", &symmetric, "3", "--json"]), "{\"row\": 3, \"columns\": [3], \"values\": [-9]}\n");
}

#[test]
fn a_picture_marks_each_pair_twice() {
    let picture = path("week.svg");
    answer(&["picture", WEEK, picture.to_str().unwrap()]);
    let text = fs::read_to_string(&picture).unwrap();
    assert!(text.starts_with("<svg ") && text.ends_with("</svg>\n"));
    let marks = text.lines().filter(|line| line.starts_with("<path fill=\"#d8342b\""));
    assert_eq!(marks.map(|path| path.matches('M').count()).collect::<Vec<_>>(), [7, 7]);
    // that of the README, by powers of two alone, so that it is the same on every machine
    answer(&["picture", WEEK, picture.to_str().unwrap(), "--rule", "whole"]);
    assert_eq!(fs::read(&picture).unwrap(), fs::read("../docs/week.svg").unwrap());
    // zeros are not drawn
    let squares = text.lines().filter(|line| line.starts_with("<path")).map(|path| path.matches('M').count());
    assert_eq!(squares.sum::<usize>(), 2 * (20 + 7));
}

#[test]
fn standard_input_and_help() {
    let input = fs::File::open(WEEK).unwrap();
    let tool = env!("CARGO_BIN_EXE_suontarvi");
    let output = Command::new(tool).args(["match", "-"]).stdin(input).output().unwrap();
    assert_eq!(String::from_utf8(output.stdout).unwrap(), answer(&["match", WEEK]));
    let help = answer(&["--help"]);
    for word in ["match", "scale", "sheet write", "sheet read", "sheet canonical", "check", "row", "picture", "--json"]
    {
        assert!(help.contains(word), "{word}");
    }
    assert!(answer(&["--version"]).starts_with("suontarvi "));
}

/// What is behind the banner, and what must be said of it.
const BAD: [(&str, &str, &str); 21] = [
    ("", "", "line 1: the file is empty (refused with 20, BANNER)"),
    ("matrix array real general", "1 1\n1\n", "line 1: the matrix is not in coordinate form (refused with 20, BANNER)"),
    ("matrix coordinate complex general", "1 1 1\n1 1 1 1\n", "line 1: the values are not real, integer or pattern"),
    ("matrix coordinate real hermitian", "1 1 1\n1 1 1\n", "line 1: the matrix is not general or symmetric"),
    (
        "matrix coordinate real general",
        "% no size\n",
        "its end: the file has no size line (refused with 21, SIZE_LINE)",
    ),
    ("matrix coordinate real general", "%\n1 1\n", "line 3: the size line is not rows, columns"),
    ("matrix coordinate real general", "1 x 1\n", "(refused with 21, SIZE_LINE)"),
    ("matrix coordinate real general", "3 2 1\n1 1 1\n", "line 2: the matrix is not square but 3 by 2"),
    ("matrix coordinate real general", "4097 4097 0\n", "line 2: 4097 columns are more than 4096 (refused with 1, TOO"),
    ("matrix coordinate real general", "4096 4096 262145\n", "line 2: 262145 entries are more than 262144 (refused w"),
    ("matrix coordinate real symmetric", "4096 4096 131073\n", "more than 131072 (refused with 2, TOO_MANY_ENTRIES)"),
    ("matrix coordinate real general", "2 2 1\n\n3 1 1\n", "line 4: the row 3 is not within 1 to 2 (refused with 5, I"),
    ("matrix coordinate real general", "2 2 1\n1 0 1\n", "line 3: the column 0 is not within 1 to 2"),
    ("matrix coordinate real general", "2 2 1\n1 -1 1\n", "line 3: the column -1 is not within 1 to 2 (refused with 5"),
    ("matrix coordinate real general", "2 2 1\n1 1\n", "line 3: an entry is a row, a column and a value"),
    ("matrix coordinate pattern general", "2 2 1\n1 1 1\n", "line 3: an entry of a pattern is a row and a column"),
    ("matrix coordinate integer general", "2 2 1\n1 1 1.5\n", "line 3: the value 1.5 is not an integer"),
    ("matrix coordinate real symmetric", "2 2 1\n1 2 1\n", "line 3: the entry of row 1 and column 2 is above the"),
    (
        "matrix coordinate real general",
        "2 2 1\n1 1 1e999\n",
        "line 3: the value 1e999 is beyond the range of doubles (r",
    ),
    (
        "matrix coordinate real general",
        "2 2 1\n1 1 1\n1 2 1\n",
        "line 4: a line after the 1 entries of the size line (",
    ),
    ("matrix coordinate real general", "2 2 2\n1 1 1\n", "its end: the size line promises 2 entries and there are 1"),
];

#[test]
fn bad_files_are_told_by_place_and_name() {
    for (at, (banner, rest, said)) in BAD.into_iter().enumerate() {
        let banner = if banner.is_empty() { String::new() } else { format!("%%MatrixMarket {banner}\n") };
        let file = file(&format!("bad-{at}.mtx"), banner + rest);
        for words in [&["match", &file][..], &["scale", &file], &["row", &file, "1"], &["picture", &file, "none.svg"]] {
            let sentence = fault(words, 1);
            assert!(sentence.starts_with(&format!("suontarvi: {file}, ")) && sentence.contains(said), "{sentence}");
            assert!(sentence.contains("(refused with ") && sentence.lines().count() == 1);
        }
        let json = fault(&["match", &file, "--json"], 1);
        assert!(
            json.starts_with("{\"error\": {\"status\": 1, \"file\": \"") && json.contains("\"refusal\": "),
            "{json}"
        );
    }
}

#[test]
fn values_that_cannot_be_scaled() {
    let banner = "%%MatrixMarket matrix coordinate real general\n";
    let sum = file("sum.mtx", format!("{banner}2 2 4\n1 1 1\n2 2 1e308\n2 2 1e308\n2 1 1\n"));
    let place = "line 4, row 2, column 2: the sum of the lines of this place is beyond the range of doubles";
    for words in [&["match", &sum][..], &["scale", &sum], &["scale", &sum, "--rule", "whole"]] {
        let sentence = fault(words, 1);
        assert!(sentence.contains(place) && sentence.contains("(refused with 9, VALUE_NOT_FINITE)"), "{sentence}");
    }
    let tiny = file("tiny.mtx", format!("{banner}2 2 2\n2 2 5e-324\n1 1 1\n"));
    let sentence = fault(&["scale", &tiny, "--rule", "whole"], 1);
    assert!(sentence.contains("line 3, row 2, column 2: ") && sentence.contains("(refused with 46, VALUE_NOT_NORMAL)"));
    answer(&["scale", &tiny]);
    assert!(fault(&["scale", WEEK, "--rule", "flat"], 1).contains("the rule flat is for symmetric files"));
    assert!(fault(&["row", WEEK, "8"], 1).contains("there is no row 8, rows are 1 to 7 (refused with 5, INDEX_RANGE)"));
    assert!(fault(&["row", WEEK, "0"], 1).contains("there is no row 0"));
}

/// A record: column, bits, fields.
fn record(column: u16, row: Option<u16>, numbers: [Option<f64>; 3]) -> Vec<u8> {
    let mut map = u8::from(row.is_some());
    let mut fields = row.map_or(Vec::new(), |row| row.to_le_bytes().to_vec());
    for (bit, number) in numbers.into_iter().enumerate() {
        if let Some(number) = number {
            map |= 2 << bit;
            fields.extend(number.to_le_bytes());
        }
    }
    [&column.to_le_bytes()[..], &[map], &fields].concat()
}

#[test]
fn bad_sheets_are_told_by_record() {
    let (zero, one) = (record(0, Some(1), [Some(1.0), None, None]), record(1, Some(0), [None; 3]));
    let head = [2u8, 0];
    let cases: [(&[&[u8]], &str, &str); 8] = [
        (&[&[7]], "read", "byte 1: the sheet is cut short: even its n is missing (refused with 40, SHEET_CUT)"),
        (&[&[1, 16]], "read", "byte 0: the n of the sheet is 4097, above 4,096"),
        (
            &[&head, &zero, &one[..4]],
            "read",
            "record 2 at byte 15: the sheet is cut short in this record (refused with 40",
        ),
        (&[&head, &one, &[0, 0, 16]], "read", "record 2 at byte 7: the record has an unknown bit (refused with 41"),
        (&[&head, &one, &one], "read", "record 2 at byte 7: the sheet gives this column twice (refused with 42, PAT"),
        (
            &[&head, &one, &zero],
            "canonical",
            "record 2 at byte 7: the columns do not rise, which is not canonical (refused with 44",
        ),
        (
            &[&head, &zero, &[1, 0, 0]],
            "canonical",
            "record 2 at byte 15: the record is empty, which is not canonical (refused with 45",
        ),
        (
            &[&head, &record(1, Some(2), [None; 3])],
            "canonical",
            "record 1 at byte 2: the row is not below the sheet's n (refused with 41",
        ),
    ];
    for (at, (bytes, command, said)) in cases.into_iter().enumerate() {
        let sheet = file(&format!("bad-{at}.sheet"), bytes.concat());
        let sentence = fault(&["sheet", command, &sheet], 1);
        assert!(sentence.contains(&format!("{sheet}, {said}")), "{sentence}");
    }
}

#[test]
fn a_match_of_others_is_checked() {
    let banner = "%%MatrixMarket matrix coordinate integer general\n";
    let matrix = file("check.mtx", format!("{banner}2 2 3\n1 1 4\n2 1 1\n2 2 2\n"));
    let log = 65536.0;
    // column 1 has costs 0 and 2 logs, column 2 has cost 0; cmax is 2 logs and 1 log
    let good = |row: [u16; 2], u: [f64; 2], v: [f64; 2], cmax: [f64; 2]| {
        let record = |k: usize| record(k as u16, Some(row[k]), [Some(u[k]), Some(v[k]), Some(cmax[k])]);
        [vec![2, 0], record(0), record(1)].concat()
    };
    let cmax = [2.0 * log, log];
    let cases: [(Vec<u8>, &str); 7] = [
        (good([0, 1], [0.0; 2], [0.0; 2], cmax), ""),
        (
            good([1, 0], [0.0; 2], [0.0; 2], cmax),
            "row 1, column 2: the pair is not an entry of the matrix (refused with 30",
        ),
        (good([1, 1], [0.0; 2], [0.0; 2], cmax), "row 2, column 2: the row has two columns (refused with 30"),
        (good([0, 1], [0.0, 0.5], [0.0; 2], cmax), "u of row 2: the dual is not a whole number (refused with 31"),
        (
            good([0, 1], [1.0, 0.0], [0.0; 2], cmax),
            "row 1, column 1: u + v is above the cost of this entry (refused with 31",
        ),
        (
            good([0, 1], [-1.0, 0.0], [0.0; 2], cmax),
            "row 1, column 1: u + v of this matched pair is below its cost (refu",
        ),
        (good([0, 1], [0.0; 2], [0.0; 2], [0.0, log]), "column 1: cmax is 0 and in "),
    ];
    for (at, (bytes, said)) in cases.into_iter().enumerate() {
        let sheet = file(&format!("check-{at}.sheet"), bytes);
        match said {
            "" => assert!(answer(&["check", &matrix, &sheet]).starts_with("matched 2 of 2: complete")),
            _ => {
                let sentence = fault(&["check", &matrix, &sheet], 1);
                assert!(sentence.contains(&format!("{sheet}, {said}")), "{sentence}");
            }
        }
    }
    let small = file("small.sheet", [1, 0]);
    assert!(
        fault(&["check", &matrix, &small], 1)
            .contains(": the sheet has 1 columns and the matrix 2 (refused with 3, SLICE_LENGTH)")
    );
}

/// Columns 3, 8 and 9 have entries in rows 2 and 5 alone, columns 1 and 6 in row 7; column 4 has a zero.
const CROWDED: &str = "%%MatrixMarket matrix coordinate integer general\n9 9 14\n2 3 5\n5 3 1\n2 8 7\n5 8 -2\n2 9 3\n\
     5 9 4\n7 1 1\n7 6 9\n4 4 0\n1 2 1\n2 2 6\n3 5 1\n6 7 8\n8 7 2\n";

const COMPETE: [&str; 4] = [
    "matched 6 of 9: as many as can be, proved",
    "column 4 has no entry other than zero",
    "columns 1 and 6 have entries only in row 7: 1 of them stays without a row",
    "columns 3, 8 and 9 have entries only in rows 2 and 5: 1 of them stays without a row",
];

#[test]
fn columns_that_compete_for_rows() {
    let matrix = file("crowded.mtx", CROWDED);
    let (sheet, page) = (path("crowded.sheet"), path("crowded.html"));
    let sheet = sheet.to_str().unwrap();
    assert!(answer(&["sheet", "write", &matrix, sheet]).starts_with("matched 6 of 9"));
    assert_eq!(answer(&["check", &matrix, sheet]).lines().collect::<Vec<_>>(), COMPETE);
    let data = "\"shortages\": [{\"columns\": [4], \"rows\": [], \"empty\": 1}, \
                {\"columns\": [1, 6], \"rows\": [7], \"empty\": 1}, \
                {\"columns\": [3, 8, 9], \"rows\": [2, 5], \"empty\": 1}]}";
    let json = answer(&["check", &matrix, sheet, "--json"]);
    assert_eq!(json, format!("{{\"n\": 9, \"accepted\": true, \"matched\": 6, \"complete\": false, {data}\n"));
    let viewed = answer(&["view", &matrix, page.to_str().unwrap(), "--json"]);
    assert_eq!(viewed, format!("{{\"n\": 9, \"matched\": 6, {data}\n"));
    assert!(fs::read_to_string(page).unwrap().contains(data));
    answer(&["view", WEEK, path("week-parts.html").to_str().unwrap()]);
    assert!(fs::read_to_string(path("week-parts.html")).unwrap().contains("\"shortages\": []}"));
}

/// What a sheet that leaves columns without a row is refused for.
#[test]
fn a_sheet_that_is_not_largest() {
    let matrix = file("not-largest.mtx", CROWDED);
    let sheet = |name: &str, pairs: &[(u16, u16)]| {
        let records: Vec<u8> =
            pairs.iter().flat_map(|&(row, column)| record(column - 1, Some(row - 1), [None; 3])).collect();
        file(name, [&[9, 0], &records[..]].concat())
    };
    let most = [(1, 2), (2, 3), (5, 8), (3, 5), (6, 7), (7, 1)];
    let cases: [(&[(u16, u16)], &str); 6] = [
        (&[], "column 1: the column has no row, and another matching has more pairs (refused with 33, NOT_LARGEST)"),
        (&most[1..], "column 2: the column has no row, and another matching has more pairs (refused with 33"),
        // column 3 could have row 5 if column 8 had row 2
        (&[(5, 8), (7, 6), (2, 2)], "column 3: the column has no row, and another matching has more pairs (refused"),
        (&[(7, 1), (7, 6)], "row 7, column 6: the row has two columns (refused with 30, INCOMPLETE_MATCHING)"),
        (&[(4, 4)], "row 4, column 4: the pair is not an entry of the matrix (refused with 30"),
        (&most, "column 1: cmax is 0 and in "),
    ];
    for (at, (pairs, said)) in cases.into_iter().enumerate() {
        let sheet = sheet(&format!("not-largest-{at}.sheet"), pairs);
        let sentence = fault(&["check", &matrix, &sheet], 1);
        match at {
            5 => assert!(sentence.contains("cmax is 0 and in "), "{sentence}"),
            _ => assert!(sentence.contains(&format!("{sheet}, {said}")), "{sentence}"),
        }
        let json = fault(&["check", &matrix, &sheet, "--json"], 1);
        assert!(json.starts_with("{\"error\": {\"status\": 1, "), "{json}");
    }
}

/// The proved factor of a sheet, of the entries themselves; ties by whole logarithms may lose a little.
#[test]
fn a_sheet_and_its_factor() {
    let symmetric = file("factor.mtx", SYMMETRIC);
    let near = "%%MatrixMarket matrix coordinate real general\n2 2 4\n1 1 1\n2 1 1.0000001\n1 2 1\n2 2 1\n";
    let near = file("factor-near.mtx", near);
    for (file, most) in [(WEEK, 1.0000000001), (&symmetric, 1.0000000001), (&near, 1.00000011)] {
        let sheet = path("factor.sheet");
        let sheet = sheet.to_str().unwrap();
        answer(&["sheet", "write", file, sheet]);
        let text = answer(&["check", file, sheet]);
        let (first, second) = text.split_once('\n').unwrap();
        assert!(first.ends_with(": complete, of largest product by whole logarithms, and the duals show it"), "{text}");
        let factor = proved(&format!("\n% {second}"));
        assert!((1.0..most).contains(&factor), "{text}");
        let json = answer(&["check", file, sheet, "--json"]);
        assert!(json.contains("\"accepted\": true") && json.contains("\"complete\": true, \"certificate\": {"));
        assert!(json.contains("\"rounding\": ") && json.contains("\"factor\": \"1."), "{json}");
    }
}

#[test]
fn files_that_are_not_there_and_wrong_words() {
    assert!(fault(&["match", "none.mtx"], 1).starts_with("suontarvi: none.mtx: the file could not be read: "));
    assert!(fault(&["match", WEEK, "-o", "none/out"], 1).contains("none/out: the file could not be written: "));
    for words in [
        &[][..],
        &["match"],
        &["mend", WEEK],
        &["match", WEEK, WEEK],
        &["scale", WEEK, "--rule", "round"],
        &["scale", WEEK, "--rule"],
        &["scale", WEEK, "--loud"],
        &["sheet", "mend", WEEK],
        &["sheet", "write", WEEK],
    ] {
        assert!(fault(words, 2).contains("usage: suontarvi match FILE.mtx"), "{words:?}");
    }
}
