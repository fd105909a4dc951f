#!/bin/sh
# Prints the path of a proved program, if it is built and nothing that its proof read has changed since, or says with status 2
# that it isn't. That goes by the checksums that ./prove kept beside it: of the program, of all that its proof read, and of the
# kit's name. It builds nothing. tools/proof_sums.py says more.
#
#   tools/proved_program.sh NAME
#   tools/proved_program.sh --sums NAME     prints the checksums of what a proof reads now, and the name of the kit on the PATH
#   tools/proved_program.sh --files NAME    prints all files and folders on which the answer depends, each ended by a NUL
set -eu
case $#:${1-} in
    1:[!-]* | 2:--sums | 2:--files) ;;
    *) sed -n '6,8p' "$0" >&2 && exit 2 ;;
esac
# Debian's, since another one on the PATH may take longer to begin than all else here.
python=/usr/bin/python3
[ -x "$python" ] || python=python3
exec "$python" -EsSB "$(dirname -- "$0")/proved_program.py" "$@"
