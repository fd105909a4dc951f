#!/bin/sh
# Measures `pdsuite run` over a folder of generated scripts, on 1, 2 and 4 processors, with a worker each: its time, the
# processor time of the client alone, and that of a loop that only reads these files. The status is 1 where the client takes
# more than four times as much, or a script doesn't pass. Or measures `pdsuite watch` over 500 scripts of 60 events: the
# time from the return of a save to its row on standard output, and to all of its report, 100 times. Or measures what
# `pdsuite watch` over 50,000 scripts takes of a processor in 200 seconds in which nothing happens; 1 % is the most. Or the
# time over 50,000 scripts of which each tenth fails with that failure expected, beside the time without: 1.1 times is the most.
# Or measures `pdsuite lsp` with 500 scripts of 60 events open: the time from a change to its diagnostics, 20 ms in the median
# and 60 ms at most, and to what hover shows, 30 ms at most.
#
#   bench/suite.sh [SCRIPTS [EVENTS]]      100,000 scripts of 20 events by default. PDSUITE_PROGRAMS names the folder
#                                          of another build, or PROGRAM that of pdregress
#   bench/suite.sh watch [SAVES]
#   bench/suite.sh idle [SECONDS [SCRIPTS]]
#   bench/suite.sh known [SCRIPTS [EVENTS]]
#   bench/suite.sh lsp [CHANGES]
#   bench/suite.sh cluster [SCRIPTS [EVENTS]]   the time with 1, 2 and 4 workers of a Dask cluster on this machine, beside a
#                                               run without a cluster that has as many threads
#   bench/suite.sh all [SCRIPTS [EVENTS]]       the first, and then the cluster over the same scripts
if [ -n "${PDSUITE_PROGRAMS:-}" ]; then
    PROGRAM=${PROGRAM:-$PDSUITE_PROGRAMS/pdregress}
    RECORD=${RECORD:-$PDSUITE_PROGRAMS/pdrecord}
fi
. "$(dirname "$0")/program.sh"
mode=run
case ${1:-} in
    watch)
        mode=watch
        saves=${2:-100}
        set -- 500 60
        ;;
    lsp)
        mode=lsp
        changes=${2:-300}
        set -- 500 60
        ;;
    idle)
        mode=idle
        seconds=${2:-200}
        set -- "${3:-50000}" 20
        ;;
    known)
        mode=known
        set -- "${2:-50000}" "${3:-20}"
        ;;
    cluster | all)
        mode=$1
        shift
        ;;
esac
scripts=${1:-100000}
events=${2:-20}
mkdir "$work/programs"
ln -s "$(realpath "$program")" "$work/programs/pdregress"
if [ "$mode" = lsp ]; then
    [ -n "${RECORD:-}" ] || "$top/prove" pdrecord
    ln -s "$(realpath "${RECORD:-$top/crates/pdrecord/out/pdrecord}")" "$work/programs/pdrecord"
fi
export PDSUITE_PROGRAMS="$work/programs" XDG_CACHE_HOME="$work/cache"

# A file for each script, 1,000 to a folder.
generate "$scripts" "$events" | awk -v top="$work/suite" '
    /^add / {
        if (file) close(file)
        if (count % 1000 == 0) system("mkdir -p " (folder = top "/" int(count / 1000)))
        file = folder "/" $2 ".pkt"
        count++
        next
    }
    { print > file }'

if [ "$mode" = watch ]; then
    /usr/bin/python3 -I "$top/bench/watch.py" "$top" "$work/suite" saves "$saves"
    exit
fi
if [ "$mode" = lsp ]; then
    /usr/bin/python3 -I "$top/bench/lsp.py" "$top" "$work/suite" "$changes"
    exit
fi
if [ "$mode" = idle ]; then
    /usr/bin/python3 -I "$top/bench/watch.py" "$top" "$work/suite" idle "$seconds"
    exit
fi
if [ "$mode" = known ]; then
    /usr/bin/python3 -I "$top/bench/known_rows.py" "$top" "$work/suite"
    exit
fi
measure_cluster() {
    /usr/bin/python3 -I "$top/bench/cluster.py" "$top" "$work/suite"
}
if [ "$mode" = cluster ]; then
    measure_cluster
    exit
fi

# The client runs in this process, so that its processor time and that of the programs are apart.
cat >"$work/measure.py" <<'END'
import os
import sys
import time

# How many times what a loop takes that only reads the files the client may take.
MOST = 4
client, processors, suite = sys.argv[1:]
paths = [os.path.join(folder, name) for folder, _, names in os.walk(suite) for name in names]


def read_all() -> float:
    begin = time.process_time()
    for path in paths:
        with open(path, "rb") as file:
            file.read()
    return time.process_time() - begin


os.sched_setaffinity(0, sorted(os.sched_getaffinity(0))[: int(processors)])
count = len(os.sched_getaffinity(0))
reading = min(read_all() for _ in range(3))
begin = time.process_time()
sys.path.insert(0, client)
sys.argv = ["pdsuite", "run", suite]
from pdsuite.main import main

status = main()
own = time.process_time() - begin
print(f"{count} processors: the client {own:.2f} s, reading alone {reading:.2f} s: {own / reading:.2f} times")
sys.exit(status or own > MOST * reading)
END
failed=0
for processors in 1 2 4; do
    /usr/bin/python3 -I "$work/measure.py" "$top/client" "$processors" "$work/suite" || failed=1
done
if [ "$mode" = all ]; then
    measure_cluster
fi
exit "$failed"
