#!/usr/bin/env bash
# Proves and builds what hosts link and run: `tools/build.sh NAME...` of suontarvi, ties and pairs, or all three. The
# archive goes to target/staticlib/libsuontarvi.a, a program to target/bin. Needs objcopy (binutils) for the archive.
set -eu
cd "$(dirname "$0")/.."
[ $# -gt 0 ] || set -- suontarvi ties pairs
for name in "$@"; do
    case $name in
    suontarvi)
        (cd crates/suontarvi && rt lib)
        install -D -m 644 crates/suontarvi/out/libsuontarvi.a target/staticlib/libsuontarvi.a
        # where a host's linker puts this function elsewhere, its loop may take up to 1.7 times as long
        rounds=.text.infnorm::compute_infnorm
        objdump -h target/staticlib/libsuontarvi.a | grep -qF "$rounds" || { echo "no section $rounds" >&2; exit 1; }
        objcopy --set-section-alignment "$rounds=64" target/staticlib/libsuontarvi.a
        ;;
    ties | pairs)
        (cd "crates/$name" && rt run < stdin > /dev/null)
        install -D -m 755 "crates/$name/out/$name" "target/bin/$name"
        ;;
    *)
        echo "tools/build.sh: there is no $name to build" >&2
        exit 2
        ;;
    esac
done
