#!/bin/sh
# Installs the Debian packages of client/packages*.txt that are missing, where apt-get is there and this is root. Where one
# stays missing, says so, with status 1.
#
#   tests/packages.sh [--no-install]
set -eu
top=$(CDPATH='' cd -P -- "$(dirname -- "$0")/.." && pwd -P)
log=$(mktemp)
trap 'rm -f "$log"' EXIT

missing() {
    for package in $(cat "$top"/client/packages*.txt); do
        dpkg-query -W -f '${db:Status-Status}' "$package" 2>/dev/null | grep -qx installed || printf ' %s' "$package"
    done
}

lost=$(missing)
[ -n "$lost" ] || exit 0
echo "missing packages:$lost"
if [ "${1:-}" != --no-install ] && [ "$(id -u)" -eq 0 ] && command -v apt-get >/dev/null; then
    export DEBIAN_FRONTEND=noninteractive
    # shellcheck disable=SC2086
    { apt-get update && apt-get install -y --no-install-recommends $lost; } >"$log" 2>&1 || tail -n 5 "$log"
    lost=$(missing)
fi
[ -n "$lost" ] || exit 0
echo "FAILED client packages: apt-get install --no-install-recommends$lost"
exit 1
