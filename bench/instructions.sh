#!/bin/sh
# Counts the instructions of the readers by valgrind, beside serdi: bench/instructions.sh [TRIPLES], of 20,000 triples where
# none is said. Documents of N-Triples and of Turtle, as they are and with characters above 127 in a quarter of their lines,
# in pieces of 65,536 bytes and of 1,000.
# It wants Debian's packages valgrind and serdi, and the program built: (cd crates/gs_bench && rt run < /dev/null).
set -eu
here=$(cd "$(dirname "$0")" && pwd)
exec python3 "$here/count_readers.py" "$here/../crates/gs_bench/out/gs_bench" "${1:-20000}"
