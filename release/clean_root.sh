#!/usr/bin/env bash
# The release as a stranger has it: dist/ in a fresh folder, without this repository's paths and environment. The C
# program of README.md is compiled by pkg-config and by CMake, the wheel is installed without network, the tool and the
# manual pages are used. Then `make install` and `make uninstall` in a PREFIX of their own.
set -euo pipefail
cd "$(dirname "$0")/.."
root=$(mktemp -d)
trap 'rm -rf "$root"' EXIT
mkdir "$root/prefix" "$root/src" "$root/home"
tar -C "$root/prefix" --strip-components=1 -xzf dist/*.tar.gz
cp dist/*.whl "$root/src"
cp host/examples/week.mtx "$root/src"
for name in first.c third.py; do
    sed -n "/^\`\`\`[a-z]* $name\$/,/^\`\`\`\$/p" README.md | sed '1d;$d' > "$root/src/$name"
    test -s "$root/src/$name"
done
(cd dist; sha256sum --quiet -c SHA256SUMS)
echo "sums of dist: right"
calls=$(grep -c '^uint32_t suontarvi_' include/suontarvi.h)
expected=$(sed -n '/^```c first.c$/,/^## /p' README.md | sed -n '/^```text$/,/^```$/p' | sed '1d;$d' | head -4)

cat > "$root/src/CMakeLists.txt" << 'END'
cmake_minimum_required(VERSION 3.13)
project(first C)
find_package(suontarvi 0.3 REQUIRED CONFIG)
add_executable(first first.c)
target_link_libraries(first suontarvi::suontarvi)
add_executable(first_static first.c)
target_link_libraries(first_static suontarvi::static)
END

cat > "$root/try.sh" << 'END'
set -euo pipefail
cd "$ROOT/src"
prefix=$ROOT/prefix
same() { if [ "$2" = "$EXPECTED" ]; then echo "$1: $(echo "$2" | head -1)"; else echo "$1: $2"; exit 1; fi; }
(cd "$prefix"; sha256sum --quiet -c SHA256SUMS)
echo "sums of the tarball: right"
export PKG_CONFIG_PATH=$prefix/lib/pkgconfig
cc -std=c99 -Wall -Wextra -Werror first.c $(pkg-config --cflags --libs suontarvi) -o first
same "pkg-config $(pkg-config --modversion suontarvi)" "$(LD_LIBRARY_PATH=$prefix/lib ./first)"
cc first.c -I"$prefix/include" "$prefix/lib/libsuontarvi.a" -lm -o first
same "archive" "$(./first)"
cmake -S . -B built -DCMAKE_PREFIX_PATH="$prefix" > cmake.log
cmake --build built >> cmake.log
same "CMake, shared" "$(built/first)"
same "CMake, static" "$(built/first_static)"
names=$(nm -D --defined-only "$prefix/lib/libsuontarvi.so" | awk '$2 == "T" { print $3 }' | sed 's/@.*//')
test "$(echo "$names" | grep -c '^suontarvi_')" = "$CALLS"
test "$(echo "$names" | grep -vc '^suontarvi_' || true)" = 0
test -z "$(nm -D --defined-only "$prefix/lib/libsuontarvi.so" | awk '$2 != "T" && $2 != "A"')"
soname=$(readelf -d "$prefix/lib/libsuontarvi.so" | sed -n 's/.*SONAME.*\[\(.*\)\]/\1/p')
echo "shared library: $CALLS calls and nothing else, $soname"
/usr/bin/python3 -m venv plain
plain/bin/pip --disable-pip-version-check --quiet install --no-index ./*.whl
said=$(plain/bin/python -c 'import suontarvi' 2>&1 | tail -1) || true
echo "wheel in a fresh venv: installed; $said"
case $said in *"suontarvi needs numpy and scipy"*) ;; *) exit 1 ;; esac
/usr/bin/python3 -m venv --system-site-packages venv
venv/bin/pip --disable-pip-version-check --quiet install --no-index ./*.whl
venv/bin/python third.py
venv/bin/python -c 'import suontarvi as s; print("wheel:", s.__version__, s.library()._name)' | sed "s#$ROOT##"
for name in LICENSE NOTICE; do
    test -s "$prefix/share/doc/suontarvi/$name"
    test -n "$(find venv -path "*dist-info*/$name")"
done
"$prefix/bin/suontarvi" --version
"$prefix/bin/suontarvi" match week.mtx | head -2 | tail -1
test "$("$prefix/bin/suontarvi" match week.mtx >&- 2> /dev/null; echo $?)" = 1
ldd "$prefix/bin/suontarvi" 2>&1 | grep -q 'not a dynamic executable\|statically linked'
echo "the tool is static"
for page in "$prefix"/share/man/man1/*.1; do
    test -z "$(man --warnings -Tutf8 -l "$page" 2>&1 > /dev/null)"
    echo "man -l $(basename "$page"): $(MANWIDTH=100 man -l "$page" | grep -c .) lines"
done
bash -euc '
    set +u
    source "$0"
    COMP_WORDS=(suontarvi scale --rule n) COMP_CWORD=3; _suontarvi; test "${COMPREPLY[*]}" = natural
    COMP_WORDS=(suontarvi sh) COMP_CWORD=1; _suontarvi; test "${COMPREPLY[*]}" = sheet
    COMP_WORDS=(suontarvi sheet r) COMP_CWORD=2; _suontarvi; test "${COMPREPLY[*]}" = read
    COMP_WORDS=(suontarvi match x --o) COMP_CWORD=3; _suontarvi; test "${COMPREPLY[*]}" = "--out-dir --out"
' "$prefix/share/bash-completion/completions/suontarvi"
echo "completion of bash: right"
if command -v zsh > /dev/null; then
    zsh -n "$prefix/share/zsh/site-functions/_suontarvi"
    echo "completion of zsh: read"
fi
if command -v fish > /dev/null; then
    completion=$prefix/share/fish/vendor_completions.d/suontarvi.fish
    said=$(fish -c "source '$completion'; complete -C 'suontarvi sheet '")
    case $said in *canonical*) echo "completion of fish: right" ;; *) echo "$said"; exit 1 ;; esac
fi
END
env -i PATH=/usr/bin:/bin HOME="$root/home" LANG=C.UTF-8 ROOT="$root" CALLS="$calls" EXPECTED="$expected" \
    bash "$root/try.sh"

make --no-print-directory install PREFIX="$root/other" > /dev/null
test -x "$root/other/bin/suontarvi"
make --no-print-directory uninstall PREFIX="$root/other" > /dev/null
test -z "$(find "$root/other" -type f -o -type l)"
echo "install and uninstall: nothing is left"
echo "the release holds in a clean root"
