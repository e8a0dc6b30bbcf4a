#!/bin/sh
# Measures storage: bench/storage.sh [TRIPLES] times each phase of gs_storage_bench, beside sort -u on the same lines;
# bench/storage.sh instructions [TRIPLES] counts the instructions of each in place of the time, by valgrind.
# It takes 1,000,000 triples, and 100,000 for instructions, where none is said.
# It wants the program built: (cd crates/gs_storage_bench && rt run < /dev/null).
set -eu
here=$(cd "$(dirname "$0")" && pwd)
what=seconds
count=1000000
case "${1:-}" in
instructions)
    what=$1
    count=100000
    shift
    ;;
esac
python3 "$here/measure_storage.py" "$here/../crates/gs_storage_bench/out/gs_storage_bench" "${1:-$count}" "$what"
