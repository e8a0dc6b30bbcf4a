#!/bin/sh
# The memory that readers hold for hostile texts of ten million bytes, beside serdi: bench/hostile.sh [BYTES].
# It wants Debian's package serdi, and the program built: (cd crates/gs_bench && rt run < /dev/null).
set -eu
here=$(cd "$(dirname "$0")" && pwd)
exec python3 "$here/measure_hostile.py" "$here/../crates/gs_bench/out/gs_bench" "${1:-10000000}"
