#!/bin/sh
# Makes the Debian package of built programs, installs it in a folder that stands for a machine's root, starts the server as its unit does,
# asks it, saves its graphs and puts them back as the units say, and takes it away again: package.sh [GSD [GSDRILL]]. It wants dpkg, binutils,
# curl, python3 and, where it is not run by root, fakeroot. What systemd-analyze, man and lintian say is looked at where they are installed,
# and said to be left out where they are not.
set -eu
here=$(cd "$(dirname "$0")" && pwd)
top=$(dirname "$here")
gsd=${1:-$top/crates/gsd/out/gsd}
gsdrill=${2:-$top/crates/gsdrill/out/gsdrill}
missing=
for tool in dpkg dpkg-deb objdump curl python3; do command -v "$tool" > /dev/null || missing="$missing $tool"; done
as_root=
[ "$(id -u)" = 0 ] || { as_root=fakeroot; command -v fakeroot > /dev/null || missing="$missing fakeroot"; }
[ -z "$missing" ] || { echo "package.sh wants:$missing"; exit 2; }

server=
room=$(mktemp -d)
trap '[ -z "$server" ] || kill "$server" 2> /dev/null; rm -rf "$room"' EXIT
trap 'exit 129' HUP
trap 'exit 130' INT
trap 'exit 143' TERM
root=$room/root
saved=$root/usr/share/doc/gsd/examples/systemd/saved.conf
wrong() { echo "wrong: $1"; exit 1; }
has() { command -v "$1" > /dev/null || { echo "$1: not installed, left out"; return 1; }; }
in_root() {
    $as_root dpkg --root="$root" --log=/dev/null --force-script-chrootless --force-depends --force-not-root "$@" > "$room/dpkg" 2>&1 ||
        { cat "$room/dpkg"; wrong "dpkg $1"; }
}
files() { (cd "$root" && find . -path ./var/lib/dpkg -prune -o ! -type d -print | sort); }

[ -x "$gsdrill" ] && drill=$gsdrill || drill=
package=$("$top/packaging/build.sh" "$gsd" "$drill" "$room/one")
cmp "$package" "$("$top/packaging/build.sh" "$gsd" "$drill" "$room/two")" || wrong "a second build gives other bytes"
echo "built: $(basename "$package"), the same bytes twice"

if has lintian; then
    lintian --allow-root --fail-on error "$package" > "$room/lintian" 2>&1 || { cat "$room/lintian"; wrong "lintian finds an error"; }
    echo "lintian: no error, $(grep -c '^W:' "$room/lintian" || true) warnings"
fi

mkdir -p "$root/var/lib/dpkg/info" "$root/var/lib/dpkg/updates"
: > "$root/var/lib/dpkg/status"
in_root -i "$package"
wanted=$(dpkg-deb -f "$package" Depends | sed -n 's/^libc6 (>= \(.*\))$/\1/p')
[ -n "$wanted" ] || wrong "it depends on other things than libc6"
echo "installed: $(files | wc -l) files; it wants libc6 $wanted"

for page in "$root"/usr/share/doc/gsd/*.md; do
    for link in $(sed '/^```/,/^```$/d' "$page" | grep -o ']([^) ]*)' | sed 's/^](//; s/[#)].*//' | grep -v : | sort -u); do
        [ -e "$root/usr/share/doc/gsd/$link" ] || wrong "$(basename "$page") links to $link, which the package lacks"
    done
done
echo "pages: each link to a file leads to one"

if has systemd-analyze; then
    # Its targets are those of this machine, and the root of the check stays as it is.
    cp -r "$root" "$room/machine"
    cp -rn /lib/systemd/system/. "$room/machine/lib/systemd/system/"
    # Other packages have the programs that the units call.
    for program in bin/sh usr/bin/curl usr/bin/python3; do install -D -m 755 /dev/null "$room/machine/$program"; done
    verify() {
        said=$(systemd-analyze verify --man=no --root="$room/machine" "$@" 2>&1) || wrong "systemd-analyze verify: $said"
        [ -z "$said" ] || wrong "systemd-analyze verify: $said"
    }
    verify gsd.service
    install -D -m 644 "$saved" "$room/machine/etc/systemd/system/gsd.service.d/saved.conf"
    verify gsd.service gsd-save.service gsd-save.timer
    echo "systemd-analyze verify: nothing to say of the units, nor of gsd.service with saved.conf"
fi
if has man; then
    for page in "$root"/usr/share/man/man1/*.gz; do
        said=$(LC_ALL=C.UTF-8 MANWIDTH=80 man --nh --warnings -l "$page" 2>&1 > "$room/$(basename "$page" .gz)")
        [ -z "$said" ] || wrong "man -l $page: $said"
    done
    # Each option that the program names is in its page, with its default.
    "$root/usr/bin/gsd" --help > "$room/help"
    for option in $(grep -o -e '^  *--[a-z]*' "$room/help"); do
        grep -q -e "^  *$option " "$room/gsd.1" || wrong "gsd(1) has no $option"
    done
    tr -s ' \n' '  ' < "$room/gsd.1" > "$room/words"
    for default in $(sed -n 's/.*(default \(.*\))$/\1/p' "$room/help"); do
        grep -q -F "Default: $default" "$room/words" || wrong "gsd(1) does not say the default $default"
    done
    echo "man: no warning; each option and default of --help is in gsd(1)"
fi
if [ -n "$drill" ]; then
    "$root/usr/bin/gsdrill" < "$top/crates/gsdrill/stdin" | cmp - "$top/crates/gsdrill/stdout" || wrong "gsdrill"
    echo "gsdrill: plays its stored schedule"
fi

# As the unit has it, its bound too, but for the folder before the program's path, and port 0, which the system chooses.
sed -i 's/127\.0\.0\.1:8080/127.0.0.1:0/' "$root/etc/default/gsd"
[ "$(grep -c '^GSD_ARGS=.*127\.0\.0\.1:0 ' "$root/etc/default/gsd")" = 1 ] || wrong "/etc/default/gsd says no address"
line=$(sed -n 's/^ExecStart=//p' "$root/lib/systemd/system/gsd.service")
bound=$(sed -n 's/^LimitAS=\([0-9]*\)G$/\1/p' "$root/lib/systemd/system/gsd.service")
[ -n "$bound" ] || wrong "the unit gives the server no bound"
environment=$(sed -n 's/^EnvironmentFile=-//p' "$root/lib/systemd/system/gsd.service")
# shellcheck disable=SC1090
. "$root$environment"
export GSD_ARGS
for setting in $(sed -n 's/^Environment=\([A-Z_]*=[^ "]*\)$/\1/p' "$root/lib/systemd/system/gsd.service"); do
    export "${setting?}"
done
start() {
    : > "$room/listening"
    sh -c "ulimit -v $((bound * 1048576)); exec $root$line" > "$room/listening" & server=$!
    for _ in 1 2 3 4 5 6 7 8 9 10; do [ -s "$room/listening" ] && break; sleep 0.2; done
    address=$(sed -n 's/^listening //p' "$room/listening")
    [ -n "$address" ] || wrong "the server does not listen"
    [ "$(cat "/proc/$server/comm")" = gsd ] || wrong "the unit's process is not the server"
}
# end: ends the server by a signal.
end() {
    kill "$server"
    status=0
    wait "$server" || status=$?
    ended=$server server=
    [ "$status" = 143 ] || wrong "it ends with $status and not by the signal"
}
start
status=$(curl -s "$address/graphs/a" -X PUT -H 'Content-Type: text/turtle' -d '<> <http://e/p> "1" .' -o /dev/null -w '%{http_code}')
[ "$status" = 201 ] || wrong "a PUT is answered $status"
[ "$(curl -s "$address/graphs/a")" = '<http://localhost:8080/graphs/a> <http://e/p> "1" .' ] || wrong "a GET"
end
echo "the unit's line: serves a PUT and a GET, and ends by a signal"

# unit NAME FILE: does what the lines of that name say, but for the folders before the paths.
mkdir "$room/state"
unit() {
    sed -n "s|/usr/lib/gsd/|$root&|g; s|/var/lib/gsd/|$room/state/|g; s/^$1=//p" "$2" > "$room/lines"
    [ -s "$room/lines" ] || wrong "$2 has no $1"
    GSD_URL=http://$address MAINPID=${server:-$ended} sh -e "$room/lines" 2> "$room/said"
}
put_back() {
    for name in ExecStartPre ExecStartPost; do unit $name "$saved" || { cat "$room/said"; wrong "$name of saved.conf"; }; done
}
graph='<http://e/s> <http://e/p> "1" .'
start
! unit ExecStop "$saved" || wrong "a server without the graph that is written last is saved"
put_back
curl -sf "$address/graphs/a" -X PUT -H 'Content-Type: application/n-triples' --data-binary "$graph" || wrong "a PUT after a start with saved.conf"
unit ExecStop "$saved" || { cat "$room/said"; wrong "a stop with saved.conf"; }
end
! unit ExecStartPost "$saved" || wrong "a start with saved.conf of a server that has ended"
grep -q 'No such process' "$room/said" || wrong "a start of a server that has ended says $(cat "$room/said")"
start
put_back
[ "$(curl -s "$address/graphs/a")" = "$graph" ] || wrong "a graph that was put back"
curl -sf "$address/graphs/a" -X DELETE || wrong "a DELETE"
unit ExecStart "$root/lib/systemd/system/gsd-save.service" || { cat "$room/said"; wrong "gsd-save.service"; }
[ "$(wc -l < "$room/state/dataset.nq")" = 1 ] || wrong "gsd-save.service saves $(cat "$room/state/dataset.nq")"
end
echo "the lines of saved.conf and gsd-save.service: save a graph, and put it back"

in_root -r gsd
[ "$(files)" = ./etc/default/gsd ] || wrong "a removal leaves $(files)"
in_root -P gsd
left=$(find "$root" -mindepth 1 ! -path "$root/var*")
[ -z "$left" ] || wrong "a purge leaves $left"
echo "removed: the words of /etc/default/gsd stay; purged: nothing stays"
