#!/bin/sh
# Measures a scoreboard with a window of 1 MiB and segments of 64 octets: ACKs with three SACK blocks each, and after
# each what recovery asks. The program is bench/board.txt, which the gate doesn't read. It works on a copy of the
# crates; with REVISION the scoreboard is the one of that commit.
#
#   bench/board.sh [REVISION]
set -eu
top=$(cd "$(dirname "$0")/.." && pwd)
work=$(mktemp -d)
trap 'rm -rf "$work"' EXIT
mkdir -p "$work/.git" "$work/crates"
cp -R "$top/HANDLES" "$work"
cp -R "$top/crates/pd_seg" "$top/crates/pd_board" "$work/crates"
mkdir -p "$work/crates/board/src"
cp "$top/bench/board.txt" "$work/crates/board/src/main.rt"
if [ $# -gt 0 ]; then
    rm -rf "$work/crates/pd_board"
    git -C "$top" archive "$1" crates/pd_board | tar -x -C "$work"
fi
printf 'pd_seg:\npd_board: pd_seg\nboard: pd_seg pd_board\n' >"$work/crates.txt"
cd "$work/crates/board"
rt run >"$work/log" 2>&1 || { tail -n 20 "$work/log" >&2; exit 2; }
program=$work/crates/board/out/board
begin=$(date +%s%N)
"$program"
end=$(date +%s%N)
awk -v ns="$((end - begin))" 'BEGIN { printf "%.3f s\n", ns / 1e9 }'
