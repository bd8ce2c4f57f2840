//! Links libsuontarvi.a, which `tools/build.sh suontarvi` writes to target/staticlib of the repository.
//! SUONTARVI_LIB names another folder that holds it.
use std::env;
use std::path::PathBuf;

fn main() {
    println!("cargo::rerun-if-env-changed=SUONTARVI_LIB");
    println!("cargo::rerun-if-changed=build.rs");
    let folder = match env::var_os("SUONTARVI_LIB") {
        Some(named) => PathBuf::from(named),
        None => PathBuf::from(env!("CARGO_MANIFEST_DIR")).join("../target/staticlib"),
    };
    let archive = folder.join("libsuontarvi.a");
    // also while it is not there: the next build looks again
    println!("cargo::rerun-if-changed={}", archive.display());
    if !archive.is_file() {
        let path = archive.display();
        println!("cargo::error={path} is not there.");
        println!(
            "cargo::error=Run `tools/build.sh suontarvi` in the repository, or set SUONTARVI_LIB to the \
             folder that holds libsuontarvi.a."
        );
        return;
    }
    println!("cargo::rustc-link-search=native={}", folder.display());
    println!("cargo::rustc-link-lib=static=suontarvi");
}
