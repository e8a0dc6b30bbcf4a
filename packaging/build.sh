#!/bin/sh
# Makes a Debian package of built programs: build.sh [GSD [GSDRILL [FOLDER]]]. Left out, they are those that `rt run` leaves in the crates;
# gsdrill is packed where it is there. The package lies in the folder afterwards, packaging/out where none is said, and its path is printed.
# It builds no program.
set -eu
here=$(cd "$(dirname "$0")" && pwd)
top=$(dirname "$here")
gsd=${1:-$top/crates/gsd/out/gsd}
gsdrill=${2:-$top/crates/gsdrill/out/gsdrill}
# a name alone is a file of this folder, and no program of the path
case $gsd in */*) ;; *) gsd=./$gsd ;; esac
stop() { echo "build.sh: $1" >&2; exit 1; }
for tool in dpkg-deb objdump gzip; do
    command -v "$tool" > /dev/null || stop "$tool is missing (Debian's packages dpkg, binutils and gzip)"
done
[ -x "$gsd" ] || stop "there is no $gsd: cd crates/gsd && rt run -- --once < stdin"
[ -z "${2:-}" ] || [ -x "$gsdrill" ] || stop "there is no $gsdrill"

"$gsd" --help 2> /dev/null | grep -q '^Usage: gsd ' || stop "$gsd is no gsd"
objdump -f "$gsd" | grep -q x86-64 || stop "$gsd is not for this architecture"

version=$(sed -n 's/.*this is version \([0-9.]*[0-9]\).*/\1/p' "$top/README.md")
[ -n "$version" ] || stop "README says no version"
date=$(sed -n "s/^## $version (\([0-9-]*\))\$/\1/p" "$top/CHANGES.md")
[ -n "$date" ] || stop "CHANGES.md has no version $version"
# Files have the date of the version, so the same programs make the same package.
SOURCE_DATE_EPOCH=$(date -u -d "$date" +%s)
export SOURCE_DATE_EPOCH
maintainer='Joeybismuth maintainers <maintainers@users.noreply.joeybismuth.example>'

root=$(mktemp -d)
trap 'rm -rf "$root"' EXIT
trap 'exit 129' HUP
trap 'exit 130' INT
trap 'exit 143' TERM
chmod 755 "$root"
doc=$root/usr/share/doc/gsd

# put MODE FILE TO: a file of the package.
put() { install -D -m "$1" "$2" "$root$3"; }
# text FILE NAME: a page, whose links are to where the package has it; what the package lacks is named without a link.
text() {
    mkdir -p "$doc"
    sed -E '/^!\[.*\]\(plots\//d; s|\]\(\.\./|](|g; s|\]\(docs/|](|g; s|\]\(bench/README\.md|](bench.md|g
        s| \(\[[^]]*\]\(CONTRIBUTING\.md[^)]*\)\)||g
        s|\[([^]]*)\]\((CONTRIBUTING\.md\|LICENSE\|checks/\|crates/\|examples/systemd/gsd\.)[^)]*\)|\1|g' "$1" > "$doc/$2"
    chmod 644 "$doc/$2"
}
# page NAME: a manual page.
page() {
    mkdir -p "$root/usr/share/man/man1"
    sed "s/@VERSION@/$version/" "$here/$1.1" | gzip -9n > "$root/usr/share/man/man1/$1.1.gz"
}

programs=$gsd
put 755 "$gsd" /usr/bin/gsd
page gsd
if [ -x "$gsdrill" ]; then
    programs="$programs $gsdrill"
    put 755 "$gsdrill" /usr/bin/gsdrill
    page gsdrill
fi
for unit in gsd.service gsd-save.service gsd-save.timer; do
    put 644 "$top/examples/systemd/$unit" "/lib/systemd/system/$unit"
done
put 755 "$top/examples/save.sh" /usr/lib/gsd/save.sh
put 644 "$top/examples/restore.py" /usr/lib/gsd/restore.py
put 644 "$here/gsd.default" /etc/default/gsd
put 644 "$here/lintian-overrides" /usr/share/lintian/overrides/gsd
for file in "$top"/README.md "$top"/CHANGES.md "$top"/docs/*.md; do
    text "$file" "$(basename "$file")"
done
text "$top/bench/README.md" bench.md
for file in haproxy/haproxy.cfg nginx/gsd.conf systemd/saved.conf; do
    put 644 "$top/examples/$file" "/usr/share/doc/gsd/examples/$file"
done
# Where the commands of the pages call them.
for script in save.sh restore.py; do ln -s "../../../../lib/gsd/$script" "$doc/examples/$script"; done
{
    printf 'Format: https://www.debian.org/doc/packaging-manuals/copyright-format/1.0/\nUpstream-Name: gsd\n\nFiles: *\n'
    sed -n 's/^Copyright (c) /Copyright: /p' "$top/LICENSE"
    echo 'License: Expat'
    sed '1,/^Copyright/d; 1,/^$/{/^$/d}; s/^$/./; s/^/ /' "$top/LICENSE"
} > "$doc/copyright"
{
    printf 'gsd (%s) unstable; urgency=medium\n\n  * What this version brought stands in CHANGES.md.\n\n' "$version"
    printf ' -- %s  %s\n' "$maintainer" "$(date -u -R -d "$date")"
} | gzip -9n > "$doc/changelog.gz"

# The newest version of the C library that a name of the programs asks for, and no other library.
# shellcheck disable=SC2086
others=$(objdump -p $programs | sed -n 's/^ *NEEDED *//p' | sort -u | grep -v -x 'libc\.so\.6' || true)
[ -z "$others" ] || stop "a program wants $others"
# shellcheck disable=SC2086
library=$(objdump -T $programs | sed -n 's/.*(\{0,1\}GLIBC_\([0-9.]*\).*/\1/p' | sort -Vu | tail -n 1)

mkdir "$root/DEBIAN"
cat > "$root/DEBIAN/control" << END
Package: gsd
Version: $version
Architecture: amd64
Maintainer: $maintainer
Installed-Size: $(du -sk --apparent-size "$root" | cut -f1)
Depends: libc6 (>= $library)
Recommends: curl, python3
Suggests: nginx | haproxy
Section: database
Priority: optional
Description: RDF graph store in memory, served over HTTP
 A server of the SPARQL 1.1 Graph Store HTTP Protocol: graphs are put, read,
 added to, patched and deleted over HTTP, as N-Triples and Turtle. Each write
 takes effect whole, and each read shows its graph, or all graphs, as they were
 at one moment. A write may be on the condition that nobody wrote its graph
 since it was read.
 .
 What it stores is in memory alone, and is gone when it ends. Two scripts save
 it to a file, which wants curl, and put it back, which wants python3.
END
echo /etc/default/gsd > "$root/DEBIAN/conffiles"
(cd "$root" && find etc lib usr -type f -print0 | LC_ALL=C sort -z | xargs -0 md5sum) > "$root/DEBIAN/md5sums"
for script in postinst prerm postrm; do
    put 755 "$here/$script" "/DEBIAN/$script"
done
# Whoever builds, files are root's, and what others may read does not hang on the umask.
find "$root" -type d -exec chmod 755 {} +
find "$root" -type f ! -perm -u+x -exec chmod 644 {} +
folder=${3:-$here/out}
mkdir -p "$folder"
package=$folder/gsd_${version}_amd64.deb
dpkg-deb --root-owner-group -Zxz --build "$root" "$package" > /dev/null
echo "$package"
