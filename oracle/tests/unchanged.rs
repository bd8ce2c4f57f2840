//! What was compiled is the checkout's own text.

use std::fs;
use std::path::{Path, PathBuf};

const ORIGINALS: [&str; 13] = [
    "constants/parallel.rs",
    "constants/scaling.rs",
    "error.rs",
    "logging.rs",
    "parallel.rs",
    "scalar.rs",
    "scaling/hungarian.rs",
    "scaling/infnorm.rs",
    "scaling/mc64.rs",
    "scaling/mod.rs",
    "sparse/csc.rs",
    "sparse/general.rs",
    "sparse/layout.rs",
];

fn tree() -> PathBuf {
    Path::new(env!("OUT_DIR")).join("tree")
}

fn checkout() -> PathBuf {
    let rslab = std::env::var_os("RSLAB").expect("RSLAB is set for the tests as for the build");
    Path::new(&rslab).join("src")
}

#[test]
fn the_originals_are_compiled_byte_for_byte() {
    for name in ORIGINALS {
        let compiled = fs::read(tree().join(name)).unwrap();
        assert!(
            compiled == fs::read(checkout().join(name)).unwrap(),
            "{name}"
        );
    }
}

#[test]
fn the_changed_copies_differ_in_their_calls_and_one_line_added() {
    let original = fs::read_to_string(checkout().join("scaling/mc64.rs")).unwrap();
    let copies = [
        ("tickets", vec![(".exp()", ".ticket()")]),
        ("bare", vec![(".exp()", ".bare()"), (".ln()", ".bare()")]),
    ];
    for (folder, calls) in copies {
        let changed = fs::read_to_string(tree().join(folder).join("mc64.rs")).unwrap();
        let pairs: Vec<_> = original.lines().zip(changed.lines()).collect();
        let differing: Vec<_> = pairs.iter().filter(|(old, new)| old != new).collect();
        assert_eq!(differing.len(), 2 * calls.len());
        for (old, new) in differing {
            let expected = calls.iter().fold(old.to_string(), |line, (call, other)| {
                line.replace(call, other)
            });
            assert_eq!(expected, **new);
        }
        assert_eq!(changed.lines().count(), original.lines().count() + 1);
    }
}
