#!/bin/sh
# Tries the edits that must fail and that the gate leaves out, those of checks/edits: edits.sh [NAME..], all crates where none is named. It
# wants nothing built, but is quick only where `rt check` has proved the crate.
set -eu
exec python3 "$(dirname "$0")/edits.py" "$@"
