#!/bin/sh
# Eight editors write one graph of a built gsd back on condition, and lose nothing; without conditions they lose lines:
# editors.sh [PROGRAM [TIMES]].
set -eu
here=$(cd "$(dirname "$0")" && pwd)
exec python3 "$here/editors.py" "${1:-$here/../crates/gsd/out/gsd}" "${2:-500}"
