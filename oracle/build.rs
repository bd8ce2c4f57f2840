//! Lays out one source tree in OUT_DIR: the original files byte for byte, the
//! stand-ins of `shims/modules` beside them, and two changed copies of `mc64.rs`.

use std::path::{Path, PathBuf};
use std::{env, fs, process};

/// The files of the original that are compiled, below `src/` of the checkout.
const ORIGINALS: [&str; 13] = [
    "constants/parallel.rs",
    "constants/scaling.rs",
    "error.rs",
    "logging.rs",
    "parallel.rs",
    "scalar.rs",
    "scaling/hungarian.rs",
    "scaling/infnorm.rs",
    "scaling/mc64.rs",
    "scaling/mod.rs",
    "sparse/csc.rs",
    "sparse/general.rs",
    "sparse/layout.rs",
];

const SHIMS: &str = "shims/modules";

fn main() {
    println!("cargo::rerun-if-env-changed=RSLAB");
    println!("cargo::rerun-if-changed=build.rs");
    println!("cargo::rerun-if-changed={SHIMS}");
    let source = checkout().join("src");
    let tree = PathBuf::from(env::var_os("OUT_DIR").expect("cargo sets OUT_DIR")).join("tree");
    if tree.exists() {
        fs::remove_dir_all(&tree).expect("the old tree can be removed");
    }
    for name in ORIGINALS {
        let original = source.join(name);
        println!("cargo::rerun-if-changed={}", original.display());
        write(&tree.join(name), &read(&original));
    }
    copy_folder(Path::new(SHIMS), &tree);
    let mc64 = source.join("scaling/mc64.rs");
    let exp = [(".exp()", ".ticket()")];
    let tickets = changed(&mc64, &exp, "use super::Ticket;\n");
    write(&tree.join("tickets/mc64.rs"), tickets.as_bytes());
    let both = [(".exp()", ".bare()"), (".ln()", ".bare()")];
    let bare = changed(&mc64, &both, "use super::Bare;\n");
    write(&tree.join("bare/mc64.rs"), bare.as_bytes());
}

/// The checkout that RSLAB names.
fn checkout() -> PathBuf {
    let path = PathBuf::from(env::var_os("RSLAB").unwrap_or_default());
    if !path.is_absolute() || !path.join("src/scaling/hungarian.rs").is_file() {
        fail(
            "set RSLAB to the absolute path of a checkout of rslab \
             (the folder that holds src/scaling/hungarian.rs)",
        );
    }
    path
}

/// `mc64.rs` with each of the calls, which it has twice, replaced, and a line added.
fn changed(mc64: &Path, calls: &[(&str, &str)], line: &str) -> String {
    let mut text = String::from_utf8(read(mc64)).expect("mc64.rs is UTF-8");
    for (call, other) in calls {
        let count = text.matches(call).count();
        if count != 2 {
            fail(&format!(
                "{} calls {call} {count} times, not twice",
                mc64.display()
            ));
        }
        text = text.replace(call, other);
    }
    text + line
}

fn copy_folder(from: &Path, to: &Path) {
    for entry in fs::read_dir(from).expect("the stand-ins can be listed") {
        let path = entry.expect("the stand-ins can be listed").path();
        let target = to.join(path.file_name().expect("an entry has a name"));
        if path.is_dir() {
            copy_folder(&path, &target);
        } else {
            write(&target, &read(&path));
        }
    }
}

fn read(path: &Path) -> Vec<u8> {
    fs::read(path).unwrap_or_else(|e| fail(&format!("cannot read {}: {e}", path.display())))
}

fn write(path: &Path, bytes: &[u8]) {
    let folder = path.parent().expect("every file lies in a folder");
    fs::create_dir_all(folder)
        .and_then(|()| fs::write(path, bytes))
        .unwrap_or_else(|e| fail(&format!("cannot write {}: {e}", path.display())))
}

/// Cargo prints the line and ends the build; a failing status would only bury
/// the line under a report of this program's output.
fn fail(message: &str) -> ! {
    println!("cargo::error={message}");
    process::exit(0)
}
