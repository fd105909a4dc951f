#!/bin/sh
# Gives the built program random input, a million octets a run: as commands, as scripts and as settings texts. Each run
# has to end by itself within a minute, with status 0, 1 or 2, what it then prints and no more, and less memory than the
# bound. Then random streams of commands without `show`, which have to say the same octets with 8 workers as without,
# and streams whose output or input fails. Then streams that are explained, with --explain, which has to write the same and
# to say nothing that doesn't print. Prints a line a kind: its runs, how they ended, the longest time and the most
# memory. Outside the gate: needs Python and GNU time.
#
#   tools/fuzz.sh [ROUNDS [SEED]]      10 rounds from seed 1 by default; a round is a run of each kind, and a
#                                      hundred streams. PROGRAM names another build.
set -eu
top=$(cd "$(dirname "$0")/.." && pwd)
program=${PROGRAM:-$top/crates/pdregress/out/pdregress}
[ -n "${PROGRAM:-}" ] || "$top/prove" pdregress
exec python3 "$top/tools/fuzz.py" "$program" "${1:-10}" "${2:-1}"
