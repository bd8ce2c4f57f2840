#!/usr/bin/env bash
# The must-fail edits of large crates, which the gate leaves out: tests/edits/CRATE/*.edit, tried by `rt must-fail` in a
# copy of crates/. `tests/edits.sh CRATE...` tries only those of the named crates. What `rt check` kept in crates/*/out
# is not proved again; else the crates are proved before the edits are tried. The status is that of `rt must-fail`: 1 if
# an edit is not refused, does not fit or was not tried; it is 2 if a crate has no folder here.
set -eu
cd "$(dirname "$0")/.."
[ $# -gt 0 ] || set -- $(ls tests/edits)
for crate in "$@"; do
    [ -d "tests/edits/$crate" ] || { echo "tests/edits has no folder $crate" >&2; exit 2; }
done
scratch=$(mktemp -d)
trap 'rm -rf "$scratch"' EXIT
mkdir "$scratch/crates"
cp crates.txt "$scratch"
tar -C crates --exclude='./*/out' --exclude='./*/must-fail' -cf - . | tar -C "$scratch/crates" -xf -
# the named crates and those below them: crates.txt has leaves first
needed=$(tac crates.txt | awk -F: -v named="$*" '
    BEGIN { split(named, names, " "); for (k in names) wanted[names[k]] }
    /^[a-z]/ {
        split($1, head, " ")
        if (head[1] in wanted) { print head[1]; split($2, deps, " "); for (k in deps) wanted[deps[k]] }
    }')
for crate in $needed; do
    [ ! -d "crates/$crate/out" ] || cp -a "crates/$crate/out" "$scratch/crates/$crate"
done
for crate in "$@"; do
    mkdir "$scratch/crates/$crate/must-fail"
    cp "tests/edits/$crate"/*.edit "$scratch/crates/$crate/must-fail"
done
cd "$scratch"
rt must-fail "$@"
