#!/bin/sh
# Saves what a built gsd holds by examples/save.sh, puts it back by examples/restore.py, and sees that it is the same, and that whatever ends a
# save or a restore early does no harm: restore.sh [PROGRAM [TRIPLES]]. TRIPLES are those of the largest graph, 2,000,000 where none are said.
set -eu
here=$(cd "$(dirname "$0")" && pwd)
program=${1:-"$here/../crates/gsd/out/gsd"} triples=${2:-2000000}
command -v curl > /dev/null || { echo "restore.sh wants: curl"; exit 2; }
[ -x "$program" ] || { echo "restore.sh: there is no $program"; exit 2; }
case $triples in *[!0-9]*) echo "usage: restore.sh [PROGRAM [TRIPLES]]"; exit 2 ;; esac
[ "$triples" -ge 200000 ] || { echo "restore.sh: fewer than 200,000 triples are saved before anything can end it"; exit 2; }
exec python3 "$here/restore.py" "$program" "$triples"
