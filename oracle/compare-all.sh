#!/bin/sh
# Every differential run, COUNT inputs of each call (200,000) from one SEED (1): a line for each call with its inputs and
# its differences; status 1 if anything differs, could not be run, or if a program is too slow. The match has five times
# as many inputs, the programs half, the square root and the logarithm fifty times. Needs RSLAB, libsuontarvi.a,
# target/bin/ties and target/bin/pairs (oracle/README.md).
set -u
: "${RSLAB:?names a checkout of rslab by absolute path}"
count=${1:-200000}
seed=${2:-1}
here=$(cd "$(dirname "$0")" && pwd)
said=$(mktemp)
trap 'rm -f "$said"' EXIT
failed=0

# The lines with differences; all that was said if the run fails.
run() {
    if "$@" >"$said" 2>&1; then
        grep ' differences' "$said"
    else
        cat "$said"
        failed=1
    fi
}

compare() {
    run cargo run --release --quiet --manifest-path "$here/compare/Cargo.toml" "$1" "$2" "$seed"
}

for call in sparse graphs factors infnorm scaling rows check gap largest sheets exponents flat symmetric; do
    compare "$call" "$count"
done
compare match $((count * 5))
compare logs $((count * 50))
run cargo run --release --quiet --manifest-path "$here/../host/Cargo.toml" --example roots $((count * 50)) "$seed"
compare ties $((count / 2))
compare pairs $((count / 2))
if [ "$failed" = 0 ]; then
    echo "all alike"
else
    echo 'NOT all alike, not all run, or a program too slow: see above'
fi
exit $failed
