#!/usr/bin/env bash
# Our match beside scipy's and MUMPS', on the same graphs: prints the tables of docs/PERFORMANCE.md. Nothing is
# installed: what is missing is said.
# bench/peers/run.sh [MILLISECONDS [SITTINGS]]: the time for a graph in each sitting (default 2000), and how many (3).
set -eu
cd "$(dirname "$0")/../.."
missing=()
python=${PYTHON:-/usr/bin/python3}
"$python" -c 'import numpy, scipy.sparse.csgraph' 2>/dev/null || missing+=(python3-scipy)
"$python" -c 'import ctypes; ctypes.CDLL("libdmumps_seq.so").dmumps_mtransw_' 2>/dev/null || missing+=(libmumps-seq-dev)
command -v gcc >/dev/null || missing+=(gcc)
if [ ${#missing[@]} -gt 0 ]; then
    echo "bench/peers: missing of Debian's packages: ${missing[*]}" >&2
    exit 1
fi
python/build.sh
exec "$python" bench/peers/peers.py "$@"
