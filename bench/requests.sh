#!/bin/sh
# Counts the instructions of a GET, a PUT, a POST and a PATCH of ten triples by valgrind: bench/requests.sh [GSD..].
# It wants Debian's package valgrind, and the program built: (cd crates/gsd && rt run -- --once < stdin).
set -eu
here=$(cd "$(dirname "$0")" && pwd)
[ $# -gt 0 ] || set -- "$here/../crates/gsd/out/gsd"
exec python3 "$here/count_requests.py" "$@"
