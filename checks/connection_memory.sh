#!/bin/sh
# Runs a program that serves one connection, from standard input to standard output, with each request for memory refused
# in turn: connection_memory.sh [PROGRAM]. A built program is run alone and with all requests after it refused too; for
# a crate's folder `rt try --fail-alloc` builds it anew for each request, which takes hours.
set -eu
here=$(cd "$(dirname "$0")" && pwd)
program=${1:-"$here/../crates/gsd/out/gsd"}
room=$(mktemp -d)
trap 'rm -rf "$room"' EXIT
cc -shared -fPIC -O1 -o "$room/refuse.so" "$here/refuse.c"
python3 "$here/connection_memory.py" "$program" "$room"
