"""Measures `pdsuite run` over a folder of which every tenth script fails, with these rows expected and without.

It is called by bench/suite.sh. The status is 1 where the run takes more than 1.1 times as long with them.
"""

import resource
import subprocess
import sys
import time
from pathlib import Path

BAD = b"+0 bind(3, ..., ...) = 1\n"
MOST = 1.1
EACH = 10
TIMES = 5


def make_scripts_fail(scripts: list[Path]) -> None:
    """Has scripts fail in a line after their last one."""
    for path in scripts:
        path.write_bytes(path.read_bytes() + BAD)


def write_or_remove_expectations(scripts: list[Path], are_known: bool) -> None:
    """Writes the files that say which rows are expected, or takes them away."""
    tables: dict[Path, list[str]] = {}
    for place, path in enumerate(scripts):
        row = f"fail {path.read_bytes().count(10)} result"
        table = f'["{path.name}"]\nexpect = "{row}"\nreason = "it binds twice, #{place}"\n'
        tables.setdefault(path.parent / "pdsuite.toml", []).append(table)
    for file, texts in tables.items():
        if are_known:
            file.write_text("\n".join(texts))
        else:
            file.unlink(missing_ok=True)


def time_run(top: str, suite: str, status: int) -> tuple[float, float]:
    """The seconds that a run takes, and those of a processor, with all that it starts."""
    begin, before = time.monotonic(), resource.getrusage(resource.RUSAGE_CHILDREN)
    done = subprocess.run([Path(top, "pdsuite"), "run", suite], stdout=subprocess.DEVNULL)
    seconds, after = time.monotonic() - begin, resource.getrusage(resource.RUSAGE_CHILDREN)
    assert done.returncode == status, done.returncode
    return seconds, after.ru_utime + after.ru_stime - before.ru_utime - before.ru_stime


def main() -> int:
    top, suite = sys.argv[1:]
    scripts = sorted(Path(suite).rglob("*.pkt"))
    failing = scripts[::EACH]
    make_scripts_fail(failing)
    without: list[tuple[float, float]] = []
    known: list[tuple[float, float]] = []
    for _ in range(TIMES):
        write_or_remove_expectations(failing, False)
        without.append(time_run(top, suite, 1))
        write_or_remove_expectations(failing, True)
        known.append(time_run(top, suite, 0))
    (seconds, work), (others, other_work) = [
        (min(it[0] for it in each), min(it[1] for it in each)) for each in (known, without)
    ]
    print(
        f"{len(scripts):,} scripts, {len(failing):,} of them expected to fail: {seconds:.2f} s, without {others:.2f} s:"
        f" {seconds / others:.2f} times; of a processor {work:.2f} s, without {other_work:.2f} s"
    )
    return seconds > MOST * others


sys.exit(main())
