#!/usr/bin/env bash
# The shared library for python/suontarvi, from the archive that `tools/build.sh suontarvi` writes (or the one in the
# folder SUONTARVI_LIB): target/python/libsuontarvi.so.
set -eu
cd "$(dirname "$0")/.."
exec make --no-print-directory --quiet target/python/libsuontarvi.so
