#!/bin/sh
# Fetches the packetdrill scripts of the kernel's self-tests, as the Debian package of the kernel's source has them, into
# a new or empty folder: `FOLDER/net/packetdrill` and `FOLDER/net/netfilter/packetdrill`. They are the kernel's own, under
# its licence, and stay outside this repository. It needs apt-get, dpkg-deb, tar and xz, and some 160 MB of room for a
# while. Outside the gate.
#
#   tools/kernel_scripts.sh FOLDER [PACKAGE]      PACKAGE is linux-source-6.12 by default
#
# Where this machine's sources don't have the package it says so, names those that they have, and ends with status 2.
set -eu

refuse() {
    echo "kernel_scripts: $*" >&2
    exit 2
}

[ $# -eq 1 ] || [ $# -eq 2 ] || refuse 'tools/kernel_scripts.sh FOLDER [PACKAGE]'
package=${2:-linux-source-6.12}
case $package in
linux-source-[0-9]*) ;;
*) refuse "$package: no linux-source-VERSION" ;;
esac
case $package in
*[!a-z0-9.+-]*) refuse "$package: no name of a package" ;;
esac
for tool in apt-get apt-cache dpkg-deb tar xz; do
    command -v "$tool" >/dev/null || refuse "$tool isn't there"
done
top=$(CDPATH='' cd -P -- "$(dirname -- "$0")/.." && pwd -P)
folder=$(realpath -m -- "$1")
case $folder/ in
"$top"/*) refuse "$1: lies in this repository" ;;
esac
mkdir -p -- "$folder"
[ -z "$(ls -A -- "$folder")" ] || refuse "$1: isn't empty"

if ! apt-cache show "$package" >/dev/null 2>&1; then
    known=$(apt-cache search --names-only '^linux-source-[0-9.]+$' | cut -d ' ' -f 1 | tr '\n' ' ')
    refuse "$package: the package sources of this machine don't have it; they have: ${known:-none} (apt-get update first)"
fi

work=$(mktemp -d)
trap 'rm -rf "$work"' EXIT
(cd "$work" && apt-get download "$package" >"$work/errors" 2>&1) || {
    cat "$work/errors" >&2
    refuse "$package: apt-get download failed"
}
tests=tools/testing/selftests
# The package holds one archive, /usr/src/linux-source-VERSION.tar.xz.
version=${package#linux-source-}
dpkg-deb --fsys-tarfile "$work"/"$package"_*.deb |
    tar -xO --wildcards "./usr/src/linux-source-$version.tar.*" |
    tar -xJ -C "$folder" --strip-components=4 --wildcards \
        "*/$tests/net/packetdrill/*" "*/$tests/net/netfilter/packetdrill/*" 2>"$work/errors" || {
    # A folder that this version of the kernel doesn't have is no fault, as long as there are scripts.
    grep -q 'Not found in archive' "$work/errors" || { cat "$work/errors" >&2 && refuse "$package: can't be unpacked"; }
}
count=$(find "$folder" -name '*.pkt' | wc -l)
[ "$count" -gt 0 ] || refuse "$package: has no packetdrill scripts"
echo "$count scripts of $(basename "$work"/"$package"_*.deb .deb) in $folder"
