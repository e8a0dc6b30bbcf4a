#!/bin/sh
# Adds up the processor minutes of a run of `rt ci` by crate and by kind: minutes.sh FOLDER [PROCESS] & beside a run that goes on,
# whose table then stands in FOLDER/minutes.txt, or minutes.sh -- rt ci [NAME..], which runs it and prints the table.
set -eu
exec python3 "$(dirname "$0")/minutes.py" "$@"
