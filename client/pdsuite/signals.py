"""SIGINT, SIGTERM and SIGHUP, as something to look at between two steps of the work."""

import os
import signal
from collections.abc import Sequence
from types import FrameType

_SIGNALS = (signal.SIGINT, signal.SIGTERM, signal.SIGHUP)


class StoppedError(Exception):
    """A signal requested the end."""

    def __init__(self, number: int) -> None:
        super().__init__(signal.Signals(number).name)
        self.status = 128 + number


class Stop:
    """Notes the first signal and makes a descriptor readable; a second signal ends the process as ever.

    In a thread that can't heed signals it is used without any.
    """

    def __init__(self, signals: Sequence[signal.Signals] = _SIGNALS) -> None:
        self._signals = signals
        self._number = 0
        self._reader, self._writer = os.pipe2(os.O_NONBLOCK | os.O_CLOEXEC)

    def __enter__(self) -> "Stop":
        if self._signals:
            signal.set_wakeup_fd(self._writer, warn_on_full_buffer=False)
        for number in self._signals:
            if signal.getsignal(number) != signal.SIG_IGN:
                signal.signal(number, self._note_signal_and_restore_defaults)
        return self

    def __exit__(self, *error: object) -> None:
        if self._signals:
            signal.set_wakeup_fd(-1)
        for number in self._signals:
            if signal.getsignal(number) == self._note_signal_and_restore_defaults:
                signal.signal(number, signal.SIG_DFL)
        os.close(self._reader)
        os.close(self._writer)

    def fileno(self) -> int:
        """The descriptor that can be read once a signal has come."""
        return self._reader

    def raise_if_stopped(self) -> None:
        """Raises StoppedError where a signal has come."""
        if self._number:
            raise StoppedError(self._number)

    def _note_signal_and_restore_defaults(self, number: int, frame: FrameType | None) -> None:
        self._number = number
        for each in self._signals:
            if signal.getsignal(each) == self._note_signal_and_restore_defaults:
                signal.signal(each, signal.SIG_DFL)
