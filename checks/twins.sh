#!/bin/sh
# Tries the harmless twins of the edits that must fail, each of which the prover must accept: twins.sh [NAME..], all crates where none is
# named. It wants nothing built, but is quick only where `rt check` has proved the crate.
set -eu
exec python3 "$(dirname "$0")/twins.py" "$@"
