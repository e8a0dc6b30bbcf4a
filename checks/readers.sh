#!/bin/sh
# Compares the readers of N-Triples and of Turtle with plain ones on drawn documents: readers.sh PROGRAM [DOCUMENTS [SEED]].
set -eu
here=$(cd "$(dirname "$0")" && pwd)
program=${1:-"$here/../crates/gs_reading_cases/out/gs_reading_cases"}
PYTHONDONTWRITEBYTECODE=1 python3 "$here/readers.py" "$program" "${2:-100000}" "${3:-1}"
