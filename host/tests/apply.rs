//! `apply` and `restore`: there and back on files of every kind, bit for bit by powers of two.

mod common;

use std::fs;

use common::{WEEK, answer, fault, file, path, shell};

/// The next number below a bound, by a linear congruential generator.
struct Random(u64);

impl Random {
    fn below(&mut self, bound: u64) -> u64 {
        self.0 = self.0.wrapping_mul(6364136223846793005).wrapping_add(1442695040888963407);
        (self.0 >> 33) % bound
    }

    /// Any normal double of up to 2^±300.
    fn value(&mut self) -> f64 {
        let bits = self.below(1 << 26) << 26 | self.below(1 << 26) | (723 + self.below(600)) << 52;
        f64::from_bits(bits | self.below(2) << 63)
    }
}

/// Ten files: real, integer and pattern, general and symmetric, complete and not, with zeros and repeated places. Tests
/// run at the same time, so each has files by its own name.
fn ten_files(name: &str) -> Vec<String> {
    let mut random = Random(43);
    let mut files = vec![WEEK.to_string()];
    for at in 0..9 {
        let field = ["real", "real", "integer", "pattern"][at % 4];
        let symmetry = ["general", "symmetric", "general"][at % 3];
        let n = [1, 3, 8, 20, 33, 64][at % 6] + at as u64;
        let mut lines = Vec::new();
        for column in 1..=n {
            for _ in 0..1 + random.below(4) {
                let row = random.below(n) + 1;
                let place = if symmetry == "symmetric" { (row.max(column), row.min(column)) } else { (row, column) };
                let value = match field {
                    "real" => format!(" {:e}", random.value()),
                    "integer" => format!(" {}", random.below(2000) as i64 - 1000),
                    _ => String::new(),
                };
                lines.push(format!("{} {}{value}", place.0, place.1));
            }
        }
        lines.sort_by_key(|line| line.split(' ').take(2).collect::<Vec<_>>().join(" "));
        if field == "real" {
            // sums of such values are not all normal
            lines.dedup_by_key(|line| line.split(' ').take(2).collect::<Vec<_>>().join(" "));
        }
        let head = format!("%%MatrixMarket matrix coordinate {field} {symmetry}\n{n} {n} {}\n", lines.len());
        files.push(file(&format!("{name}-{at}.mtx"), head + &lines.join("\n") + "\n"));
    }
    files
}

/// Row, column and the bits of each value, both triangles, repeated places summed in their order.
fn bits(text: &str) -> Vec<(usize, usize, u64)> {
    let symmetric = text.lines().next().unwrap().ends_with("symmetric");
    let mut sums = std::collections::BTreeMap::new();
    for line in text.lines().filter(|line| !line.starts_with('%')).skip(1) {
        let words: Vec<&str> = line.split(' ').collect();
        let (row, column): (usize, usize) = (words[0].parse().unwrap(), words[1].parse().unwrap());
        let value: f64 = words.get(2).map_or(1.0, |word| word.parse().unwrap());
        *sums.entry((column, row)).or_insert(0.0) += value;
        if symmetric && row != column {
            *sums.entry((row, column)).or_insert(0.0) += value;
        }
    }
    sums.into_iter().map(|((column, row), value): (_, f64)| (row, column, value.to_bits())).collect()
}

/// The numbers of an array, by columns.
fn numbers(text: &str) -> Vec<f64> {
    text.lines().filter(|line| !line.starts_with('%')).skip(1).map(|line| line.parse().unwrap()).collect()
}

fn array(name: &str, n: usize, columns: &[Vec<f64>]) -> String {
    let mut text = format!("%%MatrixMarket matrix array real general\n{n} {}\n", columns.len());
    columns.iter().flatten().for_each(|value| text += &format!("{value:e}\n"));
    file(name, text)
}

#[test]
fn ten_files_there_and_back_bit_for_bit() {
    let files = ten_files("ten");
    assert_eq!(files.len(), 10);
    for (at, original) in files.iter().enumerate() {
        for stay in [false, true] {
            let out = path(&format!("back-{at}-{stay}.mtx"));
            let out = out.to_str().unwrap();
            let mut words = vec!["apply", original, "-o", out, "--rule", "whole"];
            words.extend(stay.then_some("--no-permute"));
            answer(&words);
            let before = bits(&fs::read_to_string(original).unwrap());
            assert_eq!(bits(&answer(&["restore", out])), before, "{original}");
            // what was written is what `scale` says, and the matched entries are on the diagonal
            let scaled = bits(&fs::read_to_string(out).unwrap());
            assert_eq!(scaled.len(), before.len());
            let rows = numbers(&answer(&["match", original]));
            let n = rows.len();
            let perm = numbers(&fs::read_to_string(out.replace(".mtx", ".perm.mtx")).unwrap());
            let exponents = numbers(&fs::read_to_string(out.replace(".mtx", ".factors.mtx")).unwrap());
            for &(place, column, value) in &scaled {
                let (row, value) = (perm[place - 1] as usize, f64::from_bits(value));
                let power = exponents[row - 1] + exponents[n + column - 1];
                let (_, _, was) = before.iter().find(|(r, c, _)| (*r, *c) == (row, column)).unwrap();
                let halves = [power.div_euclid(2.0), power - power.div_euclid(2.0)];
                assert_eq!(f64::from_bits(*was) * halves[0].exp2() * halves[1].exp2(), value);
                if !stay && rows[column - 1] as usize == row {
                    assert_eq!(place, column);
                }
            }
            let mut sorted = perm.clone();
            sorted.sort_by(f64::total_cmp);
            assert_eq!(sorted, (1..=n).map(|row| row as f64).collect::<Vec<_>>());
        }
    }
}

/// Solutions and right-hand sides: D y = d is solved by y = C^-1 x, which comes back as x in every bit.
#[test]
fn vectors_there_and_back_bit_for_bit() {
    let mut random = Random(2);
    for (at, original) in ten_files("ten-sides").iter().enumerate() {
        let out = path(&format!("vectors-{at}.mtx"));
        let out = out.to_str().unwrap();
        let n = numbers(&answer(&["match", original])).len();
        let sides: Vec<Vec<f64>> = (0..2).map(|_| (0..n).map(|_| random.value()).collect()).collect();
        let rhs = array(&format!("rhs-{at}.mtx"), n, &sides);
        answer(&["apply", original, "-o", out, "--rule", "whole", "--rhs", &rhs]);
        let written = out.replace(".mtx", ".rhs.mtx");
        let back = numbers(&answer(&["restore", out, "--rhs", &written]));
        assert_eq!(back, sides.concat(), "{original}");
        let exponents = numbers(&fs::read_to_string(out.replace(".mtx", ".factors.mtx")).unwrap());
        let (x, y): (Vec<f64>, Vec<f64>) = (0..n)
            .map(|column| {
                let x = random.value();
                (x, x * (-exponents[n + column]).exp2())
            })
            .unzip();
        let solution = array(&format!("solution-{at}.mtx"), n, &[y]);
        assert_eq!(numbers(&answer(&["restore", out, "--solution", &solution])), x, "{original}");
    }
}

/// By natural factors a solution comes back but for rounding, and the diagonal is one.
#[test]
fn natural_factors_are_near() {
    let out = path("natural.mtx");
    let out = out.to_str().unwrap();
    let said = answer(&["apply", WEEK, "-o", out]);
    assert!(
        said.starts_with("matched 7 of 7; ") && said.contains("natural.perm.mtx") && said.ends_with(".factors.mtx\n")
    );
    let (before, after) = (bits(&fs::read_to_string(WEEK).unwrap()), bits(&answer(&["restore", out])));
    for (one, other) in before.iter().zip(&after) {
        let (was, is) = (f64::from_bits(one.2), f64::from_bits(other.2));
        assert!((one.0, one.1) == (other.0, other.1) && (was - is).abs() <= 1e-14 * was.abs());
    }
    let text = fs::read_to_string(out).unwrap();
    assert!(text.contains("% week.mtx permuted and scaled (natural), matched 7 of 7\n"));
    let diagonal = bits(&text).into_iter().filter(|(row, column, _)| row == column);
    let sizes: Vec<f64> = diagonal.map(|(_, _, value)| f64::from_bits(value).abs()).collect();
    assert!(sizes.len() == 7 && sizes.iter().all(|size| (size - 1.0).abs() < 1e-14), "{sizes:?}");
    let json = answer(&["apply", WEEK, "-o", out, "--rule", "whole", "--json"]);
    assert!(
        json.starts_with("{\"n\": 7, \"matched\": 7, \"complete\": true, \"rule\": \"whole\", \"permuted\": true, ")
    );
}

/// A product that is zero, though its factors are not, is refused as one is that is not normal.
#[test]
fn entries_that_would_become_zero() {
    let out = path("lost.mtx");
    let _ = fs::remove_file(&out);
    let out = out.to_str().unwrap();
    for (far, rule) in [("1e-100", "natural"), ("1e-10", "natural"), ("1e-100", "whole")] {
        let head = "%%MatrixMarket matrix coordinate real general\n2 2 4\n";
        let lost = file("lost-from.mtx", format!("{head}1 1 1e300\n1 2 {far}\n2 1 {far}\n2 2 1e300\n"));
        let sentence = fault(&["apply", &lost, "-o", out, "--rule", rule], 1);
        assert!(sentence.contains("row 2, column 1: "), "{sentence}");
        assert!(sentence.contains("(refused with 46, VALUE_NOT_NORMAL)") && !path("lost.mtx").exists(), "{sentence}");
        // a zero that is stored is one
        answer(&["apply", &file("zero-from.mtx", format!("{head}1 1 1e300\n1 2 0\n2 1 0\n2 2 1e300\n")), "-o", out]);
        fs::remove_file(out).unwrap();
    }
}

/// A factor times a value may be far below what all three are.
#[test]
fn natural_factors_of_both_ends() {
    let head = "%%MatrixMarket matrix coordinate real general\n2 2 4\n";
    let ends = file("both-ends.mtx", format!("{head}1 1 1\n1 2 1e304\n2 1 1e-304\n2 2 1.25e-19\n"));
    let out = path("both-ends-out.mtx");
    let out = out.to_str().unwrap();
    answer(&["apply", &ends, "-o", out]);
    let (before, after) = (bits(&fs::read_to_string(&ends).unwrap()), bits(&answer(&["restore", out])));
    assert_eq!(before.len(), after.len());
    for (one, other) in before.iter().zip(&after) {
        let (was, is) = (f64::from_bits(one.2), f64::from_bits(other.2));
        assert!((one.0, one.1) == (other.0, other.1) && (was - is).abs() <= 1e-12 * was.abs(), "{was} {is}");
    }
}

#[test]
fn nothing_that_is_read_is_written_over() {
    let overwrites = |words: &[&str]| assert!(fault(words, 1).contains("would overwrite an input file"), "{words:?}");
    let copy = file("own.mtx", fs::read(WEEK).unwrap());
    overwrites(&["apply", &copy, "-o", &copy]);
    overwrites(&["match", &copy, "-o", &copy]);
    assert!(fault(&["picture", &copy, &copy], 2).contains("picture of several files needs --out-dir"));
    assert_eq!(fs::read(&copy).unwrap(), fs::read(WEEK).unwrap());
    let sheet = path("own.sheet");
    let sheet = sheet.to_str().unwrap();
    answer(&["sheet", "write", &copy, sheet]);
    let before = fs::read(sheet).unwrap();
    overwrites(&["check", &copy, sheet, "-o", sheet]);
    overwrites(&["check", &copy, sheet, "-o", &copy]);
    overwrites(&["sheet", "canonical", sheet, sheet]);
    assert_eq!(fs::read(sheet).unwrap(), before);
    let out = path("own-out.mtx");
    let out = out.to_str().unwrap();
    answer(&["apply", &copy, "-o", out]);
    for what in ["", ".perm", ".factors"] {
        let read = out.replace(".mtx", &format!("{what}.mtx"));
        let before = fs::read(&read).unwrap();
        overwrites(&["restore", out, "-o", &read]);
        assert_eq!(fs::read(&read).unwrap(), before);
    }
    // all names are tested before one is written
    for name in ["later.mtx", "later.perm.mtx"] {
        let _ = fs::remove_file(path(name));
    }
    let sides = array("later.rhs.mtx", 7, &[vec![1.0; 7]]);
    overwrites(&["apply", &copy, "-o", &sides.replace(".rhs", ""), "--rhs", &sides]);
    assert!(!path("later.mtx").exists() && !path("later.perm.mtx").exists());
    // the number of a row is not a file that is read
    file("1", "");
    let (status, _, said) = shell("$SUONTARVI row $WEEK 1 -o 1");
    assert_eq!((status, said.as_str()), (Some(0), ""));
    assert_eq!(fs::read_to_string(path("1")).unwrap(), answer(&["row", WEEK, "1"]));
}

#[test]
fn what_is_wrong_is_told() {
    let out = path("wrong.mtx");
    let out = out.to_str().unwrap();
    assert!(fault(&["apply", WEEK], 2).contains("apply needs -o OUT.mtx"));
    assert!(fault(&["apply", WEEK, "-o", "-"], 2).contains("apply needs -o OUT.mtx"));
    assert!(fault(&["match", WEEK, "--no-permute"], 2).contains("match takes no --no-permute"));
    assert!(fault(&["match", WEEK, "--rhs", "b"], 2).contains("match takes no --rhs"));
    let short = array("short.mtx", 6, &[vec![1.0; 6]]);
    assert!(
        fault(&["apply", WEEK, "-o", out, "--rhs", &short], 1)
            .contains("line 2: the array has 6 rows, and the matrix 7")
    );
    assert!(fault(&["apply", WEEK, "-o", out, "--rhs", "none"], 1).contains("none: the file could not be read"));
    assert!(fault(&["restore", WEEK], 1).contains("week.factors.mtx: the file could not be read"));
    answer(&["apply", WEEK, "-o", out, "--rule", "whole"]);
    assert!(fault(&["restore", out, "--rhs", "x", "--solution", "y"], 2).contains("--solution or --rhs, and not both"));
    let huge = array("huge.mtx", 7, &[vec![1e308; 7]]);
    let sentence = fault(&["restore", out, "--solution", &huge], 1);
    assert!(
        sentence.contains("huge.mtx, number ") && sentence.contains("(refused with 46, VALUE_NOT_NORMAL)"),
        "{sentence}"
    );
    for (what, wrong, said) in [
        (
            "perm",
            "%%MatrixMarket matrix array integer general\n7 1\n1\n2\n3\n4\n5\n6\n6\n",
            "6 is not a row, or occurs twice",
        ),
        (
            "perm",
            "%%MatrixMarket matrix array integer general\n7 1\n1\n2\n3\n4\n5\n6\n8\n",
            "8 is not a row, or occurs twice",
        ),
        (
            "factors",
            "%%MatrixMarket matrix array integer general\n7 1\n1\n2\n3\n4\n5\n6\n6\n",
            "factors have two columns",
        ),
        ("factors", "%%MatrixMarket matrix array real general\n7 2\n0\n", "its end: the size line promises 14 numbers"),
    ] {
        let beside = out.replace(".mtx", &format!(".{what}.mtx"));
        let right = fs::read(&beside).unwrap();
        fs::write(&beside, wrong).unwrap();
        assert!(fault(&["restore", out], 1).contains(said), "{said}");
        fs::write(&beside, right).unwrap();
    }
    answer(&["restore", out]);
}

#[test]
fn factors_that_are_none() {
    let out = path("no-factors.mtx");
    let out = out.to_str().unwrap();
    answer(&["apply", WEEK, "-o", out]);
    let zero = "%%MatrixMarket matrix array real general\n7 2\n".to_string() + &"0\n".repeat(14);
    fs::write(out.replace(".mtx", ".factors.mtx"), zero).unwrap();
    assert!(fault(&["restore", out], 1).contains("the factor 0 is not above zero"));
    let least = "%%MatrixMarket matrix array real general\n7 2\n".to_string() + &"1e-309\n".repeat(14);
    fs::write(out.replace(".mtx", ".factors.mtx"), least).unwrap();
    assert!(fault(&["restore", out], 1).contains("the inverse of the factor 1e-309 is beyond the range of doubles (r"));
    let far = "%%MatrixMarket matrix array integer general\n7 2\n".to_string() + &"67108865\n".repeat(14);
    fs::write(out.replace(".mtx", ".factors.mtx"), far).unwrap();
    assert!(fault(&["restore", out], 1).contains("the exponent 67108865 is beyond 67108864 (refused with 43"));
}
