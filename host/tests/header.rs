//! The header through a C compiler (`cc`, or what CC names): it is clean C99, its constants and lengths are the
//! crate's, a call takes NULL with 0, and no call takes more stack than the header says.

use std::env;
use std::fs;
use std::path::{Path, PathBuf};
use std::process::Command;

use suontarvi::factors::Rule;
use suontarvi::scaling::Choice;
use suontarvi::{NONE, lengths};

fn host() -> &'static Path {
    Path::new(env!("CARGO_MANIFEST_DIR"))
}

fn archive() -> PathBuf {
    let folder = env::var_os("SUONTARVI_LIB").map_or(host().join("../target/staticlib"), PathBuf::from);
    folder.join("libsuontarvi.a")
}

/// What a C program prints.
fn printed(name: &str, source: &Path, options: &[&str]) -> String {
    let program = Path::new(env!("CARGO_TARGET_TMPDIR")).join(name);
    let compiler = env::var_os("CC").unwrap_or("cc".into());
    let compiled = Command::new(compiler)
        .args(["-O2", "-Wall", "-Wextra", "-Werror"])
        .args(options)
        .arg("-I")
        .arg(host().join("../include"))
        .arg(source)
        .args(["-x", "none"])
        .arg(archive())
        .args(["-lpthread", "-lm", "-o"])
        .arg(&program)
        .status();
    assert!(compiled.expect("a C compiler").success());
    let ran = Command::new(program).output().expect("the program");
    assert!(ran.status.success());
    String::from_utf8(ran.stdout).expect("text")
}

/// The values of C expressions, by a program that prints them.
fn values(name: &str, expressions: &[&str]) -> Vec<u64> {
    let lines: String = expressions
        .iter()
        .map(|expression| format!("    printf(\"%llu\\n\", (unsigned long long)({expression}));\n"))
        .collect();
    let text = format!("#include <stdio.h>\n#include \"suontarvi.h\"\nint main(void) {{\n{lines}    return 0;\n}}\n");
    let source = Path::new(env!("CARGO_TARGET_TMPDIR")).join(format!("{name}.c"));
    fs::write(&source, text).expect("a source");
    printed(name, &source, &["-std=c99", "-pedantic"]).lines().map(|line| line.parse().expect("a number")).collect()
}

#[test]
fn constants_and_lengths() {
    let expected = [
        ("SUONTARVI_NONE", NONE as usize),
        ("SUONTARVI_MAX_N", lengths::MAX_N),
        ("SUONTARVI_MAX_ENTRIES", lengths::MAX_ENTRIES),
        ("SUONTARVI_MAX_SYMMETRIC_ENTRIES", lengths::MAX_SYMMETRIC_ENTRIES),
        ("SUONTARVI_MAX_N_BYTES", lengths::MAX_N_BYTES),
        ("SUONTARVI_MAX_ENTRIES_BYTES", lengths::MAX_ENTRIES_BYTES),
        ("SUONTARVI_MAX_EXPONENT", lengths::MAX_EXPONENT as usize),
        ("SUONTARVI_POINTERS_LEN(7)", lengths::pointers(7)),
        ("SUONTARVI_MATCH_WORK_LEN(7)", lengths::match_work(7)),
        ("SUONTARVI_MATCH_FWORK_LEN(7)", lengths::match_fwork(7)),
        ("SUONTARVI_MATCH_ANSWER_LEN", lengths::MATCH_ANSWER),
        ("SUONTARVI_TRIPLETS_WORK_LEN(7, 11)", lengths::triplets_work(7, 11)),
        ("SUONTARVI_GRAPH_WORK_LEN(7, 11)", lengths::graph_work(7, 11)),
        ("SUONTARVI_SYMMETRIC_GRAPH_LEN(11)", lengths::symmetric_graph(11)),
        ("SUONTARVI_SHEET_LEN(7)", lengths::sheet(7)),
        ("SUONTARVI_CHOICE_INFNORM", Choice::InfNorm as usize),
        ("SUONTARVI_CHOICE_ONEPASS", Choice::OnePassInfNorm as usize),
        ("SUONTARVI_CHOICE_MC64", Choice::Mc64Symmetric as usize),
        ("SUONTARVI_CHOICE_IDENTITY", Choice::Identity as usize),
        ("SUONTARVI_CHOICE_EXTERNAL", Choice::External as usize),
        ("SUONTARVI_RULE_IDENTITY", Rule::Identity as usize),
        ("SUONTARVI_RULE_FLAT", Rule::Flat as usize),
    ];
    let names = expected.map(|(name, _)| name);
    let found: Vec<(&str, usize)> =
        names.into_iter().zip(values("constants", &names)).map(|(name, value)| (name, value as usize)).collect();
    assert_eq!(found, expected);
}

/// n = 0 has nothing but a pointer, one place of work and an answer; the identity choice has no slice from `maxima` to
/// `factor_work`; the external one looks at none.
#[test]
fn null_with_length_0() {
    let nulls = |slices| ", NULL, 0".repeat(slices);
    let (one, eight) = ("(uint32_t[1]){0}, 1", "(uint64_t[8]){0}, 8");
    let two = "(uint32_t[2]){0}, 2";
    let calls = [
        format!("suontarvi_match(0, {one}{}, {one}{}, {eight})", nulls(5), nulls(1)),
        format!("suontarvi_check_match(0, {one}{})", nulls(5)),
        format!("suontarvi_match_gap(0, 50, {one}{}, (uint64_t[1]){{7}}, 1)", nulls(5)),
        format!("suontarvi_check_largest(0, {one}{}, {one})", nulls(4)),
        format!("suontarvi_unsymmetric_factors(0{})", nulls(5)),
        format!("suontarvi_read_sheet(NULL, 0{})", nulls(5)),
        format!("suontarvi_read_sheet((uint8_t[2]){{0}}, 2{}, {two})", nulls(4)),
        format!("suontarvi_scaling(3, 1, {two}{}, (double[1]){{0}}, 1{}, {two})", nulls(4), nulls(12)),
        format!("suontarvi_scaling(4, 1{})", nulls(19)),
    ];
    let calls = calls.each_ref().map(String::as_str);
    assert_eq!(values("null", &calls), [0, 0, 0, 0, 0, 40, 0, 0, 12]);
}

#[test]
fn stack() {
    let limits = values("limits", &["SUONTARVI_STACK_BYTES", "SUONTARVI_STACK_BYTES_NATIVE"]);
    let table = printed("stack", &host().join("stack.c"), &["-std=gnu11"]);
    let largest: Vec<u64> = table
        .lines()
        .filter(|line| line.starts_with("largest"))
        .map(|line| line.rsplit(' ').next().unwrap().parse().unwrap())
        .collect();
    assert!(largest[0] <= limits[0] && largest[1] <= limits[1], "more than {limits:?}:\n{table}");
}

/// The easy header beside the calls that it stands on, as C and as C++; release/easy.sh has sanitizers and valgrind.
#[test]
fn easy() {
    let source = host().join("easy.c");
    for (name, options) in [("easy", &["-std=c99", "-pedantic"][..]), ("easy-cpp", &["-std=c++17", "-x", "c++"])] {
        let said = printed(name, &source, options);
        assert!(said.trim_end().ends_with("all freed: the easy header agrees with the calls"), "{said}");
    }
}
