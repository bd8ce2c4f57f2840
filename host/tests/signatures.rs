//! The calls of include/suontarvi.h, of src/c.rs and of the Rattle sources have the same arguments in the same order,
//! and the crate passes them on in that order; the numbers of refusals and the version are the same too. The texts are
//! compared: a C linker would take any.

use std::collections::BTreeMap;
use std::fs;
use std::path::{Path, PathBuf};

use suontarvi::Refusal;

/// An argument: a number, or a slice that is read or written, of elements of a type in Rust's words.
#[derive(Debug, Clone, PartialEq)]
struct Argument {
    name: String,
    kind: String,
}

/// The arguments of each call by its name.
type Calls = BTreeMap<String, Vec<Argument>>;

fn repository() -> PathBuf {
    Path::new(env!("CARGO_MANIFEST_DIR")).join("..")
}

fn text(path: &str) -> String {
    let path = repository().join(path);
    fs::read_to_string(&path).unwrap_or_else(|error| panic!("{}: {error}", path.display()))
}

/// The files of a folder with this ending, one after the other.
fn texts(folder: &str, ending: &str) -> String {
    let files = fs::read_dir(repository().join(folder)).unwrap().map(|file| file.unwrap().path());
    let mut files: Vec<PathBuf> = files.filter(|path| path.to_string_lossy().ends_with(ending)).collect();
    files.sort();
    files.into_iter().map(|path| fs::read_to_string(path).unwrap()).collect()
}

/// The name behind each start, and what stands in the brackets behind it, white space as one blank.
fn declared(text: &str, start: &str) -> Vec<(String, String)> {
    let mut found = Vec::new();
    for rest in text.split(start).skip(1) {
        let (name, rest) = rest.split_once('(').expect("a bracket behind the name");
        let (inside, _) = rest.split_once(')').expect("a closing bracket");
        found.push((name.trim().to_string(), inside.split_whitespace().collect::<Vec<_>>().join(" ")));
    }
    found
}

fn argument(name: &str, kind: &str) -> Argument {
    Argument { name: name.trim().to_string(), kind: kind.trim().to_string() }
}

/// Pointer and length become one slice; a length without its pointer stays and shows.
fn paired(plain: Vec<Argument>) -> Vec<Argument> {
    let mut arguments: Vec<Argument> = Vec::new();
    for next in plain {
        match arguments.last_mut() {
            Some(last) if last.kind.starts_with('*') && next == argument(&format!("{}_len", last.name), "usize") => {
                last.kind = last.kind.replacen('*', "slice ", 1);
            }
            _ => arguments.push(next),
        }
    }
    arguments
}

/// `const double *u` is a pointer that is read, in Rust's words `*const f64`.
fn of_c(inside: &str) -> Argument {
    let words = inside.replace('*', " * ");
    let mut words: Vec<&str> = words.split_whitespace().collect();
    let name = words.pop().expect("an argument has a name");
    let rust = |word| match word {
        "uint8_t" => "u8",
        "uint32_t" => "u32",
        "uint64_t" => "u64",
        "int32_t" => "i32",
        "double" => "f64",
        "size_t" => "usize",
        other => panic!("{other} is no type of this interface"),
    };
    match words[..] {
        ["const", element, "*"] => argument(name, &format!("*const {}", rust(element))),
        [element, "*"] => argument(name, &format!("*mut {}", rust(element))),
        [number] => argument(name, rust(number)),
        _ => panic!("{inside} is no argument of this interface"),
    }
}

fn header() -> Calls {
    let calls = declared(&text("include/suontarvi.h"), "\nuint32_t ");
    let of = |inside: String| paired(inside.split(',').filter(|inside| *inside != "void").map(of_c).collect());
    calls.into_iter().map(|(name, inside)| (name, of(inside))).collect()
}

/// `u: *const f64`.
fn of_rust(inside: &str) -> Argument {
    let (name, kind) = inside.split_once(':').expect("a name and a type");
    argument(name, kind)
}

fn arguments(inside: &str) -> impl Iterator<Item = &str> {
    inside.split(',').filter(|argument| !argument.trim().is_empty())
}

fn crate_c() -> Calls {
    let calls = declared(&text("host/src/c.rs"), "pub fn ");
    calls.into_iter().map(|(name, inside)| (name, paired(arguments(&inside).map(of_rust).collect()))).collect()
}

/// Slices that the library takes by the bits of their doubles: there eight bytes are u64.
fn by_bits(call: &str, name: &str) -> bool {
    match call {
        "suontarvi_write_sheet" | "suontarvi_read_sheet" | "suontarvi_read_canonical_sheet" => {
            ["u", "v", "cmax"].contains(&name)
        }
        "suontarvi_apply_exponents" => name == "values",
        _ => false,
    }
}

/// `u: &[f64]` and `u: &mut [f64]`.
fn of_rattle(call: &str, inside: &str) -> Argument {
    let Argument { name, kind } = of_rust(inside);
    let kind = match kind.strip_suffix(']') {
        None => kind,
        Some(slice) => match slice.strip_prefix("&mut [") {
            Some(element) => format!("slice mut {element}"),
            None => slice.replace("&[", "slice const "),
        },
    };
    match by_bits(call, &name) {
        true => argument(&name, &kind.replace("u64", "f64")),
        false => argument(&name, &kind),
    }
}

fn rattle() -> Calls {
    let calls = declared(&texts("crates/suontarvi/src", ".rt"), "pub extern \"C\" fn ");
    let of = |name: &str, inside: &str| arguments(inside).map(|argument| of_rattle(name, argument)).collect();
    calls.into_iter().map(|(name, inside)| (name.clone(), of(&name, &inside))).collect()
}

/// Says which call differs first, and how.
fn same(ours: &Calls, theirs: &Calls, where_ours: &str, where_theirs: &str) {
    let names = |calls: &Calls| calls.keys().cloned().collect::<Vec<_>>();
    assert_eq!(names(ours), names(theirs), "the calls of {where_ours} and of {where_theirs}");
    for (name, arguments) in ours {
        assert_eq!(arguments, &theirs[name], "{name} of {where_ours} and of {where_theirs}");
    }
}

#[test]
fn header_and_rattle() {
    assert_eq!(header().len(), 30);
    same(&header(), &rattle(), "include/suontarvi.h", "crates/suontarvi/src");
}

#[test]
fn crate_and_rattle() {
    same(&crate_c(), &rattle(), "host/src/c.rs", "crates/suontarvi/src");
}

#[test]
fn header_and_crate() {
    same(&header(), &crate_c(), "include/suontarvi.h", "host/src/c.rs");
}

/// `lent!(suontarvi_match(n; col_ptr, row_idx, cost; perm, ...))` passes each argument under its own name.
#[test]
fn passed_on_in_order() {
    let (calls, sources) = (crate_c(), texts("host/src", ".rs"));
    let passed: BTreeMap<String, String> = declared(&sources, "lent!(").into_iter().collect();
    // the version takes nothing
    let with_arguments = calls.iter().filter(|(_, arguments)| !arguments.is_empty()).map(|(name, _)| name);
    assert_eq!(passed.keys().collect::<Vec<_>>(), with_arguments.collect::<Vec<_>>());
    for (name, inside) in passed {
        let names: Vec<&str> = inside.split([',', ';']).map(str::trim).filter(|name| !name.is_empty()).collect();
        let expected: Vec<&str> = calls[&name].iter().map(|argument| argument.name.as_str()).collect();
        assert_eq!(names, expected, "lent!({name}(..))");
        let written = inside.rsplit(';').next().unwrap_or_default().split(',').filter(|name| !name.trim().is_empty());
        let mutable = calls[&name].iter().filter(|argument| argument.kind.starts_with("slice mut"));
        assert_eq!(written.count(), mutable.count(), "the slices that lent!({name}(..)) writes");
    }
}

/// Names and numbers behind a start.
fn numbers(text: &str, start: &str) -> BTreeMap<u32, String> {
    let mut found = BTreeMap::new();
    for rest in text.split(start).skip(1) {
        let words: Vec<&str> = rest.split([' ', ':', '=', ';', '\n']).filter(|word| !word.is_empty()).collect();
        let number = words.iter().find_map(|word| word.parse().ok()).expect("a number behind the name");
        found.insert(number, words[0].to_string());
    }
    found
}

/// The variants of an enum with their numbers, each named as the header names it.
fn variants(text: &str, start: &str) -> BTreeMap<u32, String> {
    let inside = text.split(start).nth(1).and_then(|rest| rest.split("\n}").next()).expect("the enum");
    let mut found = BTreeMap::new();
    for (name, number) in inside.lines().filter_map(|line| line.trim().trim_end_matches(',').split_once(" = ")) {
        let mut upper = String::new();
        for letter in name.chars() {
            if letter.is_uppercase() && !upper.is_empty() {
                upper.push('_');
            }
            upper.extend(letter.to_uppercase());
        }
        found.insert(number.parse().expect("a number behind the name"), upper);
    }
    found
}

#[test]
fn refusals_have_one_number_each() {
    let header = numbers(&text("include/suontarvi.h"), "#define SUONTARVI_REFUSED_");
    let mut rattle = variants(&text("crates/refusal/src/lib.rt"), "pub enum Refusal {");
    // the programs' own
    rattle.retain(|number, _| !(20..30).contains(number));
    let ours = Refusal::ALL.iter().map(|refusal| (refusal.number(), refusal.name().to_string())).collect();
    assert_eq!(header, rattle);
    assert_eq!(header, ours);
}

#[test]
fn one_version() {
    let header = text("include/suontarvi.h");
    let version = env!("CARGO_PKG_VERSION");
    assert!(header.contains(&format!("#define SUONTARVI_VERSION \"{version}\"\n")));
    for (part, number) in ["MAJOR", "MINOR", "PATCH"].iter().zip(version.split('.')) {
        assert!(header.contains(&format!("#define SUONTARVI_VERSION_{part} {number}\n")), "{part}");
    }
    let number = version.split('.').fold(0, |all, part| all << 8 | part.parse::<u32>().unwrap());
    assert_eq!(suontarvi::version(), number);
    let python = text("python/suontarvi/_version.py");
    assert!(python.contains(&format!("__version__ = \"{version}\"\n")));
}
