#!/bin/sh
# Times gs_bench beside serdi on one document: bench/run.sh [TRIPLES] for N-Triples, bench/run.sh turtle [TRIPLES] for
# Turtle, and bench/run.sh tokens [TRIPLES] for the tokens of a document of Turtle, which serdi writes as N-Triples.
# bench/run.sh update [TRIPLES] times the text of an update, beside gs_bench on the same triples as Turtle, whole and in pieces.
# It wants the program built: (cd crates/gs_bench && rt run < /dev/null).
set -eu
here=$(cd "$(dirname "$0")" && pwd)
maker=make_document.py
mode=
case "${1:-}" in
turtle | tokens)
    maker=make_turtle.py
    mode=$1
    shift
    ;;
update)
    maker=make_update.py
    mode=$1
    shift
    ;;
esac
count=${1:-500000}
file=$(mktemp)
twin=$(mktemp)
trap 'rm -f "$file" "$twin"' EXIT
python3 "$here/$maker" "$count" > "$file"
if [ "$mode" = update ]; then
    python3 "$here/make_turtle.py" "$count" > "$twin"
    mode="update $twin"
fi
python3 "$here/time_readers.py" "$here/../crates/gs_bench/out/gs_bench" "$file" "$count" $mode
