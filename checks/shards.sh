#!/bin/sh
# Starts three built gsd behind HAProxy by examples/haproxy/haproxy.cfg, and one gsd alone beside them, and compares what clients hear:
# shards.sh [PROGRAM [SECONDS]]. SECONDS is how long each measure of speed takes, 2 where it is left out, and 0 for none.
set -eu
here=$(cd "$(dirname "$0")" && pwd)
missing=
for package in haproxy curl wrk python3-rdflib python3-requests; do
    dpkg -s "$package" > /dev/null 2>&1 || missing="$missing $package"
done
[ -z "$missing" ] || { echo "shards.sh wants:$missing (apt-get install$missing)"; exit 2; }
program=${1:-"$here/../crates/gsd/out/gsd"} seconds=${2:-2}
[ -x "$program" ] || { echo "shards.sh: there is no $program"; exit 2; }
case $seconds in *[!0-9]*) echo "usage: shards.sh [PROGRAM [SECONDS]]"; exit 2 ;; esac
# Debian's packages belong to Debian's Python.
exec /usr/bin/python3 "$here/shards.py" "$program" "$seconds"
