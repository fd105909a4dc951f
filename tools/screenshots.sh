#!/bin/sh
# Makes the pictures of the documents anew: docs/page.png and docs/diagram.png, of examples/scripts, and docs/neovim.png and
# docs/emacs.png, of a failing script in these editors. It needs the built programs and the packages in
# client/packages*.txt; PDSUITE_PROGRAMS names other builds.
#
#   tools/screenshots.sh
set -eu
top=$(CDPATH='' cd -P -- "$(dirname -- "$0")/.." && pwd -P)
cd "$top"
work=$(mktemp -d)
trap 'rm -rf "$work"' EXIT
# Some scripts don't pass, so the status is 1; 2 is a fault.
status=0
./pdsuite run --html "$work/page" --plots 0 --plot 23_sack.pkt examples/scripts >/dev/null || status=$?
[ "$status" -le 1 ] || exit "$status"
chromium --headless --no-sandbox --hide-scrollbars --window-size=1100,720 --screenshot="$work/page.png" \
    "file://$work/page/index.html#verdict=fail&verdict=syntax&verdict=limit" 2>/dev/null
cp "$work/page.png" docs/page.png
cp "$work"/page/plots/*.png docs/diagram.png
[ -n "${PDSUITE_PROGRAMS:-}" ] || {
    mkdir "$work/programs"
    for program in pdregress pdrecord; do ln -s "$(tools/proved_program.sh $program)" "$work/programs"; done
    export PDSUITE_PROGRAMS="$work/programs"
}
(cd client && /usr/bin/python3 -m tests.editors ../docs)
