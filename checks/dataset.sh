#!/bin/sh
# Reads all graphs of a built gsd at one moment beside writers, for SECONDS, and then measures speeds on a machine that has
# nothing else to do: dataset.sh [PROGRAM [SECONDS]]. With 0 seconds it measures alone.
set -eu
here=$(cd "$(dirname "$0")" && pwd)
exec python3 "$here/dataset.py" "${1:-$here/../crates/gsd/out/gsd}" "${2:-60}"
