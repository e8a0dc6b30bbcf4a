#!/bin/sh
# Runs the built gsdrill on each worked schedule with each request for memory refused in turn, alone and with all after it, and
# on a large one with some of them, or with each: memory.sh [PROGRAM [each]].
set -eu
here=$(cd "$(dirname "$0")" && pwd)
program=${1:-"$here/../crates/gsdrill/out/gsdrill"}
room=$(mktemp -d)
trap 'rm -rf "$room"' EXIT
cc -shared -fPIC -O1 -o "$room/refuse.so" "$here/refuse.c"
python3 "$here/memory.py" "$program" "$here/../crates" "$room" "${2:-}"
