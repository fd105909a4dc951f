"""Measures `pdsuite watch` over a folder: how long after a save its row comes, and how long after it the report; or
what it takes of a processor while nothing happens.

It is called by bench/suite.sh. Every second save is in place, every other one beside and renamed.
"""

import os
import statistics
import subprocess
import sys
import time
from pathlib import Path

BAD = b"+0 bind(3, ..., ...) = 1\n"
# The most that it may take of a processor while nothing happens, and how long it is left alone before that is measured.
MOST = 0.01
SETTLING = 15


def save_script(path: Path, text: bytes, is_beside: bool) -> float:
    """Saves a script; the moment at which that returned."""
    target = path.with_name("beside.tmp") if is_beside else path
    with target.open("wb") as file:
        file.write(text)
    if is_beside:
        target.rename(path)
    return time.monotonic()


def await_first_row_and_report_end(watching: "subprocess.Popen[bytes]") -> tuple[float, float]:
    """The moments at which the first row of a report and its last line came."""
    assert watching.stdout is not None
    first = 0.0
    while line := watching.stdout.readline():
        first = first or time.monotonic()
        if line.startswith(b"total "):
            return first, time.monotonic()
    raise SystemExit("pdsuite watch ended")


def measure_saves(watching: "subprocess.Popen[bytes]", paths: list[Path], saves: int) -> None:
    """Saves scripts, each in the middle of its events and one after another."""
    rows, reports = [], []
    for number in range(saves):
        time.sleep(0.03 + 0.01 * (number % 7))
        path = paths[number * 7 % len(paths)]
        lines = path.read_bytes().splitlines(keepends=True)
        middle = len(lines) // 2
        text = b"".join([*lines[:middle], BAD, *lines[middle:]])
        saved = save_script(path, text, is_beside=number % 2 == 1)
        first, last = await_first_row_and_report_end(watching)
        rows.append(first - saved)
        reports.append(last - saved)
    for what, times in (("a row", rows), ("its report", reports)):
        middle_time, worst = statistics.median(times) * 1_000, max(times) * 1_000
        print(f"{saves} saves: {what} comes {middle_time:.1f} ms after the save, the median; {worst:.1f} ms at worst")


def measure_whether_idle_takes_too_much(watching: "subprocess.Popen[bytes]", seconds: float) -> bool:
    """Lets it be; whether it takes more than it may."""
    time.sleep(SETTLING)
    begin, before = time.monotonic(), processor_seconds_of(watching.pid)
    time.sleep(seconds)
    share = (processor_seconds_of(watching.pid) - before) / (time.monotonic() - begin)
    print(f"{seconds:.0f} s without a change: it takes {share:.2%} of a processor")
    return share > MOST


def processor_seconds_of(process: int) -> float:
    """The seconds of a processor that a process has taken."""
    fields = Path(f"/proc/{process}/stat").read_text().rsplit(") ", 1)[1].split()
    return (int(fields[11]) + int(fields[12])) / os.sysconf("SC_CLK_TCK")


def main() -> None:
    """Watches, and measures what the last words ask for."""
    top, suite, what, count = sys.argv[1:]
    paths = sorted(Path(suite).glob("*/*.pkt"))
    environment = {**os.environ, "PYTHONUNBUFFERED": "1"}
    watching = subprocess.Popen([f"{top}/pdsuite", "watch", suite], stdout=subprocess.PIPE, env=environment)
    begin = time.monotonic()
    await_first_row_and_report_end(watching)
    print(f"{len(paths)} scripts: the first report came {time.monotonic() - begin:.2f} s after the start")
    is_over = False
    if what == "idle":
        is_over = measure_whether_idle_takes_too_much(watching, float(count))
    else:
        measure_saves(watching, paths, int(count))
    watching.terminate()
    watching.wait()
    sys.exit(is_over)


main()
