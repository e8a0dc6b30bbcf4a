#!/bin/sh
# Compares DELETE WHERE with a plain search over all triples on drawn graphs and patterns: patterns.sh PROGRAM [CASES [SEED]].
set -eu
here=$(cd "$(dirname "$0")" && pwd)
program=${1:-"$here/../crates/gsdrill/out/gsdrill"}
PYTHONDONTWRITEBYTECODE=1 python3 "$here/patterns.py" "$program" "${2:-100000}" "${3:-1}"
