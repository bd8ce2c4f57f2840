#!/usr/bin/env bash
# Everything around the library: the crate and the tool, the examples, the page in Chromium, Python. Needs the archive
# (`tools/build.sh suontarvi`), Rust, a C compiler, gzip, and Debian's python3-numpy, python3-scipy, python3-matplotlib
# and chromium. The last line is `all of it holds`; else the first that failed is the last.
set -eu
cd "$(dirname "$0")/.."
python=/usr/bin/python3
cargo test --release --quiet --manifest-path host/Cargo.toml
cargo build --release --quiet --manifest-path host/Cargo.toml
python/build.sh
$python python/test_suontarvi.py
$python python/examples/test_solve.py
$python tests/files.py
$python tests/view.py "$@"
$python docs/gallery.py --check
echo all of it holds
