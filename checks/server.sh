#!/bin/sh
# Starts the built gsd as a server and drives it by curl, rdflib, requests and plain sockets; with SECONDS, keeps four readers
# and two writers busy for so long: server.sh [PROGRAM [SECONDS]].
set -eu
here=$(cd "$(dirname "$0")" && pwd)
program=${1:-"$here/../crates/gsd/out/gsd"}
missing=
for package in curl python3-rdflib python3-requests; do
    dpkg -s "$package" > /dev/null 2>&1 || missing="$missing $package"
done
[ -z "$missing" ] || { echo "server.sh wants:$missing (apt-get install$missing)"; exit 2; }
# Debian's packages belong to Debian's Python.
exec /usr/bin/python3 "$here/server.py" "$program" ${2:+"$2"}
