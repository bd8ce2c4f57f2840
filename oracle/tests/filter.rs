//! The text filter: the samples of SPECIFICATION 13, and what it says to requests
//! that are misshapen or that the original cannot take.

use std::fs;
use std::io::Write;
use std::path::Path;
use std::process::{Command, Output, Stdio};

fn ask(requests: &str) -> Output {
    let mut filter = Command::new(env!("CARGO_BIN_EXE_oracle"))
        .env("RLA_LOG", "debug")
        .stdin(Stdio::piped())
        .stdout(Stdio::piped())
        .stderr(Stdio::piped())
        .spawn()
        .expect("the filter starts");
    let mut input = filter.stdin.take().expect("its input is a pipe");
    input.write_all(requests.as_bytes()).expect("it reads");
    drop(input);
    filter.wait_with_output().expect("the filter ends")
}

fn answers(requests: &str) -> String {
    let output = ask(requests);
    assert!(output.status.success(), "{output:?}");
    String::from_utf8(output.stdout).expect("answers are plain text")
}

fn without_comments(text: &str) -> String {
    let kept = text.lines().filter(|line| !line.starts_with('#'));
    kept.map(|line| format!("{line}\n")).collect()
}

#[test]
fn samples_are_answered_as_document_01_says() {
    let folder = Path::new(env!("CARGO_MANIFEST_DIR")).join("samples");
    let names = "01 02 03 04 05 06 07 08 10 11 12a 12b 12c";
    for name in names.split(' ') {
        let read = |kind: &str| fs::read_to_string(folder.join(format!("{name}.{kind}"))).unwrap();
        let expected = without_comments(&read("answer"));
        assert_eq!(answers(&read("request")), expected, "sample {name}");
    }
    assert_eq!(
        fs::read_dir(&folder).unwrap().count(),
        2 * names.split(' ').count()
    );
}

/// A request and what is wrong with it.
const MISSHAPEN: [(&str, &str); 13] = [
    ("mix\nend\n", "line 1: mix: no request is called so"),
    (
        "ln 1\nend\n",
        "line 1: ln: a keyword stands alone on its line",
    ),
    ("\nln\nend\n", "line 2: ln: the line `values` is missing"),
    ("ln\nvalues\n", "line 1: ln: the line `end` is missing"),
    (
        "ln\nvalues\nvalues\nend\n",
        "line 1: ln: the line `values` stands twice",
    ),
    (
        "ln\nvalues\nn 1\nend\n",
        "line 1: ln: no line `n` belongs here",
    ),
    (
        "ln\nvalues 3ff\nend\n",
        "line 1: ln: `3ff` is misshapen in `values`",
    ),
    (
        "ln\nvalues +ff0000000000000\nend\n",
        "line 1: ln: `+ff0000000000000` is misshapen in `values`",
    ),
    (
        "match\nn -\nend\n",
        "line 1: match: `-` is misshapen in `n`",
    ),
    (
        "match\nn +1\nend\n",
        "line 1: match: `+1` is misshapen in `n`",
    ),
    ("match\nn 1 2\nend\n", "line 1: match: `n` takes one word"),
    (
        "match\nn 1000001\nend\n",
        "line 1: match: n is 1000001, above 1000000",
    ),
    (
        "choose\nstrategy best\nend\n",
        "line 1: choose: no strategy is called `best`",
    ),
];

#[test]
fn misshapen_requests_end_the_run_with_one_line() {
    for (request, message) in MISSHAPEN {
        let output = ask(request);
        assert_eq!(output.status.code(), Some(1), "{request}");
        assert_eq!(
            String::from_utf8_lossy(&output.stderr),
            format!("oracle: {message}\n")
        );
        assert!(output.stdout.is_empty(), "{request}");
    }
}

#[test]
fn a_panic_of_the_original_is_an_answer_and_the_run_goes_on() {
    let outside = "match\nn 1\ncol_ptr 0 1\nrow_idx 1\ncost 0000000000000000\nend\n";
    let good = "ln\nvalues 3ff0000000000000\nend\n";
    assert_eq!(
        answers(&format!("{outside}{good}")),
        "match\npanicked\nend\nln\nresults 0000000000000000\nend\n"
    );
}

#[test]
fn every_kind_of_request_is_answered() {
    let matrix = "n 1\ncol_ptr 0 1\nrow_idx 0\nvalues 3ff0000000000000\nend\n";
    let graph = "col_ptr 0 1\nrow_idx 0\ncost 0000000000000000\ncmax 0000000000000000\nend\n";
    let zeros = "u 0000000000000000\nv 0000000000000000\ncmax 0000000000000000\n";
    let matched = format!("perm 0\n{zeros}matched 1\nend\n");
    let triplet = "n 1\nrows 0\ncols 0\nvalues 3ff0000000000000\nend\n";
    let assembled = "col_ptr 0 1\nrow_idx 0\nvalues 3ff0000000000000\nend\n";
    let ones = "factors 3ff0000000000000\ninfo applied\nend\n";
    let cases: [(&str, &str, &str); 10] = [
        ("validate-symmetric", matrix, "accepted\nend\n"),
        ("validate-general", matrix, "accepted\nend\n"),
        ("triplets-symmetric", triplet, assembled),
        ("triplets-general", triplet, assembled),
        ("graph-general", matrix, graph),
        ("matching-symmetric", matrix, &matched),
        ("matching-general", matrix, &matched),
        ("factors-symmetric", &matched, ones),
        (
            "factors-unsymmetric",
            &format!("{zeros}end\n"),
            "rows 3ff0000000000000\ncolumns 3ff0000000000000\nend\n",
        ),
        (
            "log-factors-unsymmetric",
            &format!("{zeros}end\n"),
            "rows 0000000000000000\ncolumns 0000000000000000\nend\n",
        ),
    ];
    for (keyword, request, answer) in cases {
        let expected = format!("{keyword}\n{answer}");
        assert_eq!(answers(&format!("{keyword}\n{request}")), expected);
    }
}

#[test]
fn every_choice_is_answered() {
    let matrix = "n 1\ncol_ptr 0 1\nrow_idx 0\nvalues 4010000000000000\nend\n";
    let cases = [
        ("infnorm", "factors 3fe0000000000000\ninfo applied\n"),
        ("onepass", "factors 3fe0000000000000\ninfo applied\n"),
        ("identity", "factors 3ff0000000000000\ninfo not-applied\n"),
        (
            "external\nexternal 4008000000000000",
            "factors 4008000000000000\ninfo applied\n",
        ),
        ("external\nexternal", "refused 3\n"),
    ];
    for (strategy, answer) in cases {
        let request = format!("choose\nstrategy {strategy}\n{matrix}");
        assert_eq!(answers(&request), format!("choose\n{answer}end\n"));
    }
}
