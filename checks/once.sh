#!/bin/sh
# Runs the built gsd on some command lines with each request for memory refused in turn, alone and with all after it.
set -eu
here=$(cd "$(dirname "$0")" && pwd)
program=${1:-"$here/../crates/gsd/out/gsd"}
room=$(mktemp -d)
trap 'rm -rf "$room"' EXIT
cc -shared -fPIC -O1 -o "$room/refuse.so" "$here/refuse.c"
python3 "$here/once.py" "$program" "$here/../crates/gsd" "$room"
