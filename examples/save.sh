#!/bin/sh
# Saves all that a server holds: save.sh URL FILE [READY]. URL is the /store of the server. FILE gets its reply, all graphs as they were at one
# moment, as N-Quads. The reply is written beside FILE, and takes its name once it is whole and on the disk. So where anything fails before,
# FILE stays as it was. READY is the address of the graph that restore.py writes last: where that is missing, the server does not have its
# graphs back yet, and nothing is saved. In both addresses what is not ASCII stands encoded, as %C3%A9. It wants curl, GNU coreutils and
# flock. The status is 0 where FILE was replaced, 1 where it was not or may not be on the disk yet, 2 where the arguments are wrong, and 129,
# 130 or 143 where a signal ended it.
set -eu
stop() { echo "save.sh: $1" >&2; exit 1; }
case $# in 2 | 3) ;; *) echo "usage: save.sh URL FILE [READY]" >&2; exit 2 ;; esac
url=$1 ready=${3:-}
# What a link leads to is replaced, and not the link.
file=$(readlink -f -- "$2") || stop "there is no folder for $2"
[ ! -e "$file" ] || [ -f "$file" ] || stop "$file is no plain file"

room='' asking=''
clean() {
    [ -z "$asking" ] || { kill "$asking" 2> /dev/null || true; wait "$asking" || true; }
    [ -z "$room" ] || rm -rf "$room"
}
trap clean EXIT
trap 'exit 129' HUP
trap 'exit 130' INT
trap 'exit 143' TERM

# Of two saves of one file the one that began last stays: those into one folder wait for each other. Where a folder cannot be locked, as on
# some disks over a network, they do not. The shell waits for others in a way that lets it hear a signal.
command exec 9< "$(dirname "$file")" || stop "the folder of $file cannot be read"
flock 9 2> /dev/null & asking=$!
wait "$asking" || true
asking=''
room=$(mktemp -d "$file.XXXXXX") || stop "nothing can be written beside $file"

# get ADDRESS NAME TYPE: a reply into the file of that name, and its status and type into another one. No settings of the user's curl are
# read. A server that sends nothing for five minutes is given up; the most expensive update may keep all others waiting for minutes.
get() {
    curl --disable --globoff --silent --show-error --connect-timeout 30 --speed-limit 1 --speed-time 300 --header "Accept: $3" \
        --output "$room/$2" --write-out '%{http_code} %{content_type}' "$1" > "$room/said" 9<&- & asking=$!
    wait "$asking" || { asking=''; stop "no whole reply came from $1; $file stays as it was"; }
    asking=''
    said=$(cat "$room/said")
}

if [ -n "$ready" ]; then
    get "$ready" ready '*/*'
    case $said in '200 '*) ;; *) stop "$ready is answered ${said%% *}, so graphs may be missing; $file stays as it was" ;; esac
fi
get "$url" dataset application/n-quads
case $said in '200 application/n-quads'*) ;; *) stop "$url is answered ${said%% *}, and gives no N-Quads; $file stays as it was" ;; esac
if [ -n "$ready" ]; then
    # The server may have been started again between the two replies. The graph says when it was written, which no earlier start has.
    triple=$(sed -n '1s/ \.$//p' "$room/ready")
    [ -z "$triple" ] || grep -q -F -e "$triple" "$room/dataset" || stop "the server was started again meanwhile; $file stays as it was"
fi
if [ -e "$file" ]; then
    # Only root can give a file to another user.
    chown --reference="$file" "$room/dataset" 2> /dev/null || true
    chmod --reference="$file" "$room/dataset"
fi
sync "$room/dataset"
mv -f -T "$room/dataset" "$file"
sync "$(dirname "$file")"
