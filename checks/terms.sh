#!/bin/sh
# Runs the built gsd under texts that are new each time, with a slow reader: terms.sh [PROGRAM].
set -eu
here=$(cd "$(dirname "$0")" && pwd)
export PYTHONDONTWRITEBYTECODE=1
exec python3 "$here/terms.py" "${1:-$here/../crates/gsd/out/gsd}"
