"""The helpers that tests share: the result of a call of ./pdsuite, scripts, and processes."""

import os
import re
import signal
import subprocess
import time
from collections.abc import Callable
from dataclasses import dataclass
from pathlib import Path

TOP = Path(__file__).resolve().parents[2]
PASSES = b"0 socket(..., SOCK_STREAM, IPPROTO_TCP) = 3\n"
FAILS = b"0 socket(..., SOCK_STREAM, IPPROTO_TCP) = 4\n"
# A connection is established and accepted.
OPENED = b"""0 socket(..., SOCK_STREAM, 0) = 3
+0 bind(3, ..., ...) = 0
+0 listen(3, 1) = 0
+0.1 < S 0:0(0) win 32792 <mss 1000>
+0 > S. 0:0(0) ack 1 <...>
+0.1 < . 1:1(0) ack 1 win 32792
+0 accept(3, ..., ...) = 4
"""
# The seconds after which a test gives up what hangs: long, so that a busy machine fails none.
HANGS = 300.0
TOTALS = ("pass", "fail", "syntax", "unsupported", "limit", "error", "not run")
# More counts of scripts, which the totals have only where they aren't 0.
APART = ("known", "unexpected")


@dataclass(frozen=True)
class Called:
    """The status and the outputs of a call of pdsuite."""

    status: int
    out: str
    err: str

    @property
    def rows(self) -> list[str]:
        """The lines that it printed, without the totals, the lines below rows, the meanings of rows, and warnings."""
        lines = [line for line in self.out.splitlines() if line[:2] != "  " and not line.startswith("total ")]
        return [_MEANT.sub(r"\1", line) for line in lines if _WARNED not in line]

    @property
    def warnings(self) -> list[str]:
        """The lines that it printed of scripts that pass and show nothing."""
        return [line for line in self.out.splitlines() if _WARNED in line]

    @property
    def totals(self) -> dict[str, int]:
        """The counts that aren't 0."""
        last = self.out.splitlines()[-1]
        apart = [it for it in APART if f" {it} " in last]
        counts = {it: int(last.split(f" {it} ")[1].split()[0]) for it in [*TOTALS, *apart]}
        assert last.startswith(f"total {sum(counts.values())} "), last
        return {it: count for it, count in counts.items() if count}


_MEANT = re.compile(r"^(.*:\d+: (?:fail [a-z]+|syntax|unsupported|limit)): .*$")
_WARNED = ": passes, but "
Call = Callable[..., Called]
_ROW = re.compile(r"(.*?)(?::\d+)?: (?:pass|fail|syntax|unsupported|limit|error|gone)\b.*")


class Replay:
    """The rows that stand after all that was printed, by their paths, and the last totals."""

    def __init__(self, out: str) -> None:
        self.rows: dict[str, str] = {}
        self.totals = ""
        for line in out.splitlines():
            if line.startswith("total "):
                self.totals = line.rsplit(" in ")[0]
            elif not line.startswith("  ") and (found := _ROW.fullmatch(line)):
                self.rows[found[1]] = line
                if line.endswith(": gone"):
                    del self.rows[found[1]]


def write(folder: Path, **texts: bytes) -> None:
    """Writes scripts `NAME.pkt` into a folder."""
    folder.mkdir(parents=True, exist_ok=True)
    for name, text in texts.items():
        (folder / f"{name}.pkt").write_bytes(text)


def is_alive(number: int) -> bool:
    """Whether a process is there that hasn't ended."""
    try:
        os.kill(number, 0)
        return Path(f"/proc/{number}/stat").read_text().rsplit(") ")[1][0] != "Z"
    except (ProcessLookupError, FileNotFoundError):
        return False


def wait_for(mark: Path, process: "subprocess.Popen[bytes] | None" = None) -> None:
    """Waits until a program that stalls has written its mark; a process that is to start it may not end before."""
    until = time.monotonic() + HANGS
    while not mark.exists() or not mark.read_text():
        assert time.monotonic() < until and (process is None or process.poll() is None)
        time.sleep(0.01)


def ends(process: "subprocess.Popen[bytes]", number: signal.Signals) -> tuple[int, str, str]:
    """The status and the outputs of a process that is sent a signal."""
    process.send_signal(number)
    out, err = process.communicate(timeout=HANGS)
    return process.returncode, out.decode(), err.decode()


# A line below a row for which a fake program explains in full how a packet differs, and the lines of its block.
PACKET = b"+0 > . 1:2(1) ack 1\n"
BLOCK_LINES = [
    "script packet: +0 > . 1:2(1) ack 1",
    "actual packet: +0 > . 1:3(2) ack 1 win 5, sent by line 1: new data (RFC 9293, section 3.8.6.2.1)",
    "state: ESTABLISHED",
]


def wrapped(folder: Path, fake_program: Path, runs: str = ":", explains: str = ":") -> Path:
    """A folder with a fake program that is begun by these commands of the shell, where it runs scripts and explains."""
    folder.mkdir()
    (folder / "pdregress.py").symlink_to(fake_program / "pdregress")
    begin = f'if [ "$1" = --explain ]; then\n{explains}\nelse\n{runs}\nfi\n'
    (folder / "pdregress").write_text(f'#!/bin/sh\n{begin}exec "$0.py" "$@"\n')
    (folder / "pdregress").chmod(0o755)
    return folder
