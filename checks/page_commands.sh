#!/bin/sh
# Runs the commands of README, docs/USING.md and docs/SCALING.md as they stand against a built gsd, and compares what they print with what the
# pages say: page_commands.sh [PROGRAM [install]]. What is missing on the machine is named, and brought by apt-get where `install` is said.
set -eu
here=$(cd "$(dirname "$0")" && pwd)
missing=
for package in binutils curl default-jdk haproxy nginx nodejs openssl python3-rdflib python3-requests serdi; do
    case $package in
        # Any version with the compiler will do, and each flavour of nginx.
        default-jdk) command -v javac > /dev/null || missing="$missing default-jdk-headless" ;;
        nginx) command -v nginx > /dev/null || missing="$missing nginx-light" ;;
        nodejs) command -v node > /dev/null || missing="$missing nodejs" ;;
        *) dpkg -s "$package" > /dev/null 2>&1 || missing="$missing $package" ;;
    esac
done
if [ -n "$missing" ]; then
    [ "${2:-}" = install ] || { echo "page_commands.sh wants:$missing (say install, and they are installed)"; exit 2; }
    # shellcheck disable=SC2086
    apt-get install -y -qq --no-install-recommends $missing
fi
exec /usr/bin/python3 "$here/page_commands.py" "${1:-"$here/../crates/gsd/out/gsd"}"
