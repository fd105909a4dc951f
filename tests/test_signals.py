"""Tests of tools/signals.py: the first signal ends the work, and none after it what is done at the end."""

import os
import signal
import subprocess
import sys
from pathlib import Path

import pytest

TOOLS = Path(__file__).resolve().parents[1] / "tools"
WORK = """
import os, signal, sys, time
sys.path.insert(0, sys.argv[1])
import signals
signals.install_handlers_raising_at_first_signal()
try:
    print("begun", flush=True)
    sys.stdin.read()
    print("not stopped")
except signals.StoppedBySignal as signal_that_came:
    for number in signals.SIGNALS:
        os.kill(os.getpid(), number)
    print("ended", flush=True)
    signals.end_process_by(signal_that_came.number)
"""


def begun() -> "subprocess.Popen[str]":
    process = subprocess.Popen(
        [sys.executable, "-c", WORK, TOOLS], stdin=subprocess.PIPE, stdout=subprocess.PIPE, text=True
    )
    assert process.stdout is not None and process.stdout.readline() == "begun\n"
    return process


@pytest.mark.parametrize("number", [signal.SIGINT, signal.SIGTERM, signal.SIGHUP])
def test_what_is_done_at_the_end_is_ended_by_no_further_signal(number: int) -> None:
    before = {it: signal.signal(it, signal.SIG_DFL) for it in (signal.SIGINT, signal.SIGTERM, signal.SIGHUP)}
    try:
        process = begun()
    finally:
        for it, handler in before.items():
            signal.signal(it, handler)
    os.kill(process.pid, number)
    out, _ = process.communicate(timeout=300)
    assert (out, process.returncode) == ("ended\n", -number)


def test_a_signal_that_is_ignored_ends_nothing() -> None:
    before = signal.signal(signal.SIGHUP, signal.SIG_IGN)
    try:
        process = begun()
    finally:
        signal.signal(signal.SIGHUP, before)
    os.kill(process.pid, signal.SIGHUP)
    out, _ = process.communicate("", timeout=300)
    assert (out, process.returncode) == ("not stopped\n", 0)
