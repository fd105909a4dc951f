"""The signals that end a tool: the first one ends its work, and those after it nothing of what is done at the end."""
from __future__ import annotations

import os
import signal
from typing import NoReturn

SIGNALS = (signal.SIGINT, signal.SIGTERM, signal.SIGHUP)


class StoppedBySignal(KeyboardInterrupt):
    """A signal came."""

    def __init__(self, number: int) -> None:
        super().__init__()
        self.number = number


def install_handlers_raising_at_first_signal() -> None:
    """Lets the first signal raise `StoppedBySignal`. One that is ignored, as `nohup` ignores one, stays so."""
    for number in SIGNALS:
        if signal.getsignal(number) != signal.SIG_IGN:
            signal.signal(number, raise_stopped_and_ignore_later_signals)


def raise_stopped_and_ignore_later_signals(number: int, _frame: object) -> NoReturn:
    for other in SIGNALS:
        if signal.getsignal(other) == raise_stopped_and_ignore_later_signals:
            signal.signal(other, do_nothing_at_signal)
    raise StoppedBySignal(number)


def do_nothing_at_signal(_number: int, _frame: object) -> None:
    """Does nothing at a signal. (Where signals are ignored, Python may print that it found one of them.)"""


def end_process_by(number: int) -> NoReturn:
    """Ends this process by a signal, as it would end that heeds none."""
    signal.signal(number, signal.SIG_DFL)
    os.kill(os.getpid(), number)
    raise SystemExit(128 + number)
