#!/bin/sh
# Runs a program that plays schedules of many connections, gs_world_examples, with each request for memory refused in turn:
# world_memory.sh [PROGRAM], alone and with all requests after it. Given a crate's folder in the place of a built program it takes
# `rt try --fail-alloc`, which needs no proof and refuses one request alone.
set -eu
here=$(cd "$(dirname "$0")" && pwd)
program=${1:-"$here/../crates/gs_world_examples/out/gs_world_examples"}
room=$(mktemp -d)
trap 'rm -rf "$room"' EXIT
cc -shared -fPIC -O1 -o "$room/refuse.so" "$here/refuse.c"
PYTHONDONTWRITEBYTECODE=1 python3 "$here/world_memory.py" "$program" "$room"
