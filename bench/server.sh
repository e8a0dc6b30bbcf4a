#!/bin/sh
# Times the built gsd with --listen beside nginx, which serves a file of the same bytes, on loopback: bench/server.sh [GSD].
# It wants Debian's packages nginx-light and wrk, and the program built: (cd crates/gsd && rt run -- --once < stdin).
set -eu
here=$(cd "$(dirname "$0")" && pwd)
exec python3 "$here/time_server.py" "${1:-$here/../crates/gsd/out/gsd}"
