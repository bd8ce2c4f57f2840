#!/usr/bin/env bash
# What release/easy.sh and the Makefile do if a program fails, if the archive is another one, and if the programs are
# gone before `make uninstall`. The compiler here writes a script; everything is in a folder of its own.
set -euo pipefail
cd "$(dirname "$0")/.."
root=$(mktemp -d)
trap 'rm -rf "$root"' EXIT
mkdir -p "$root/one" "$root/other" "$root/prefix/bin"
touch "$root/one/libsuontarvi.a" "$root/prefix/bin/ties" "$root/prefix/bin/pairs"
touch -d 2000-01-01 "$root/other/libsuontarvi.a"
cat > "$root/cc" << 'END'
#!/usr/bin/env bash
printf '#!/bin/sh\n# %s\necho a line\nexit %s\n' "$*" "$STATUS" > "${!#}"
chmod +x "${!#}"
END
chmod +x "$root/cc"
make() { STATUS=0 command make --no-print-directory --quiet made="$root/made" CC="$root/cc" "$@"; }
must() { if ! "${@:2}"; then echo "$1"; exit 1; fi; }

status=0
STATUS=3 CC=$root/cc CXX=$root/cc release/easy.sh 1 > /dev/null || status=$?
must "release/easy.sh ends with $status, and its program with 3" test "$status" = 3

library=$root/made/libsuontarvi.so.$(sed -n 's/^#define SUONTARVI_VERSION "\(.*\)"/\1/p' include/suontarvi.h)
for archive in one other one; do
    make SUONTARVI_LIB="$root/$archive" "$library"
    must "the library is not of the archive that was named" grep -q "$root/$archive/libsuontarvi.a" "$library"
done
made=$(stat -c %y "$library")
make SUONTARVI_LIB="$root/one" "$library"
must "the library is made again for the same archive" test "$(stat -c %y "$library")" = "$made"

page=$root/made/ties.1
must "a page is made without its program" eval '! make PYTHON=false "$page" 2> /dev/null'
must "half a page is left" test ! -e "$page"
make uninstall PREFIX="$root/prefix" programs=
must "programs are left" test -z "$(ls "$root/prefix/bin")"
echo "failures: noticed"
