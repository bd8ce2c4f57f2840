#!/usr/bin/env bash
# host/easy.c as C99 and C++17, under AddressSanitizer and UBSan, and under valgrind. Lines that say what was compared.
set -euo pipefail
cd "$(dirname "$0")/.."
archive=${SUONTARVI_LIB:-target/staticlib}/libsuontarvi.a
count=${1:-10000}
folder=$(mktemp -d)
trap 'rm -rf "$folder"' EXIT
strict="-Wall -Wextra -Werror -pedantic -Iinclude"
checked="-g -O1 -fsanitize=address,undefined -fno-sanitize-recover=all"
try() {
    local said=$1 run=$2 line
    shift 2
    "$@" "$archive" -lm -o "$folder/easy"
    # the status of an assignment is that of its command, and that of echo is not
    # shellcheck disable=SC2086
    line=$($run "$folder/easy" "$count" | tail -1)
    echo "$said: $line"
}
c99="${CC:-cc} -std=c99 $strict"
cpp="${CXX:-c++} -std=c++17 -x c++ $strict"
try "C99" "" $c99 -O2 host/easy.c
try "C++17" "" $cpp -O2 host/easy.c -x none
try "C99, AddressSanitizer and UBSan" "" $c99 $checked host/easy.c
try "C++17, AddressSanitizer and UBSan" "" $cpp $checked host/easy.c -x none
if command -v valgrind > /dev/null; then
    try "C99, valgrind" "valgrind --quiet --leak-check=full --error-exitcode=1" $c99 -g -O1 host/easy.c
else
    echo "valgrind is not there: not tried" >&2
    exit 2
fi
