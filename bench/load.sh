#!/bin/sh
# Times loading into the built gsd with --listen beside serdi on the same files, on loopback: bench/load.sh [GSD [TRIPLES]].
# It wants Debian's package serdi, and the program built: (cd crates/gsd && rt run -- --once < stdin).
set -eu
here=$(cd "$(dirname "$0")" && pwd)
exec python3 "$here/time_load.py" "${1:-$here/../crates/gsd/out/gsd}" "${2:-1000000}"
