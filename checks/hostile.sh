#!/bin/sh
# What one client can make of a built gsd while others work: hostile.sh [PROGRAM [ROUNDS]]. It wants nothing but Python, and a machine
# with nothing else to do, since most of its bars are times.
set -eu
here=$(cd "$(dirname "$0")" && pwd)
program=${1:-"$here/../crates/gsd/out/gsd"} rounds=${2:-3}
[ -x "$program" ] || { echo "hostile.sh: there is no $program"; exit 2; }
case $rounds in *[!0-9]* | 0) echo "usage: hostile.sh [PROGRAM [ROUNDS]]"; exit 2 ;; esac
exec python3 "$here/hostile.py" "$program" "$rounds"
