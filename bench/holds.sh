#!/bin/sh
# Times the built gsd with --listen where one lock serves many clients, beside nginx and serdi, on two documents: bench/holds.sh [GSD [SECONDS]].
# It wants Debian's packages nginx-light, serdi and wrk, and the program built: (cd crates/gsd && rt run -- --once < stdin).
set -eu
here=$(cd "$(dirname "$0")" && pwd)
export PYTHONDONTWRITEBYTECODE=1
exec python3 "$here/time_holds.py" "${1:-$here/../crates/gsd/out/gsd}" "${2:-8}"
