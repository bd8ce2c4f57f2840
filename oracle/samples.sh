#!/bin/sh
# Runs each request of samples/ through the oracle and compares the answer with
# the one written from docs/SPECIFICATION.md. Needs RSLAB, as the build does.
set -eu
here=$(cd "$(dirname "$0")" && pwd)
got=$(mktemp)
trap 'rm -f "$got"' EXIT
failed=0
for request in "$here"/samples/*.request; do
    sample=$(basename "$request" .request)
    cargo run --release --quiet -j1 --manifest-path "$here/Cargo.toml" <"$request" >"$got"
    if grep -v '^#' "$here/samples/$sample.answer" | diff - "$got"; then
        echo "sample $sample: as written"
    else
        echo "sample $sample: differs"
        failed=1
    fi
done
exit $failed
