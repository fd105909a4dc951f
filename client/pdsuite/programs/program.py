"""A program that runs: it is started, queried, and ended. No other module starts a built program."""

import contextlib
import fcntl
import os
import select
import selectors
import signal
import subprocess
import time
from collections.abc import Generator, Iterator, Sequence
from math import inf
from pathlib import Path
from typing import TypeVar

from pdsuite.faults import error_reason
from pdsuite.output.octets import printable_octets, printable_path
from pdsuite.programs.batch_protocol import ProcessOutput
from pdsuite.signals import Stop

_PIPE = 1 << 20
_READ = 1 << 18
_KEPT = 4_096
_SHOWN = 200
_GRACE = 1.0
# Begins what a program says of a job: its steps or its rules, or by keys why it came to its row.
_OF_JOBS = (b"job ", b"{")
# Begins the first line of a program that refuses its options.
_REFUSES = b"error: "
# The statuses of a program that has read all commands.
_REGULAR = (0, 1)

T = TypeVar("T")


class ProgramEndedError(Exception):
    """A program ended, or has to be ended; the text says so, in the program's own words where it has any."""


class Program:
    """A started program, in a process group of its own: it is queried, and it ends with the block that uses it."""

    def __init__(self, words: Sequence[str | Path], stop: Stop) -> None:
        self._stop = stop
        self._name = printable_path(Path(Path(words[0]).name))
        try:
            self._process = subprocess.Popen(
                words,
                stdin=subprocess.PIPE,
                stdout=subprocess.PIPE,
                stderr=subprocess.PIPE,
                bufsize=0,
                process_group=0,
            )
        except (OSError, ValueError) as error:
            raise ProgramEndedError(f"{printable_path(Path(words[0]))}: {error_reason(error)}") from error
        try:
            self._in, self._out, self._err = _set_pipes_nonblocking_and_get_filenos(self._process)
            self._selector = selectors.EpollSelector()
        except OSError as error:
            self._kill_group_and_get_status()
            raise ProgramEndedError(f"{self._name}: {error_reason(error)}") from error
        self._unsent = b""
        # An empty line before what was printed lets every line begin after a newline.
        self._got = bytearray(b"\n")
        self._errors = b""
        self._kept = _KEPT
        self._most: float = inf  # more than so many octets on standard error are too much
        self._is_last = False
        for descriptor in (stop.fileno(), self._out, self._err):
            self._selector.register(descriptor, selectors.EVENT_READ)

    def __enter__(self) -> "Program":
        return self

    def __exit__(self, *error: object) -> None:
        self.kill_and_close()

    def query_answer_regardless_of_errors(self, commands: bytes, longest: int) -> bytes:
        """The answer of the program, up to the line `total`. It is read while the commands are written."""
        return self._drive_generator_until_answer(self._answer_until_total_as_generator(commands, longest))

    def query_with_errors(
        self, commands: bytes, longest: int, longest_errors: int | None = None
    ) -> tuple[bytes, bytes]:
        """The answer of the program, and all that it has printed on standard error by then.

        The limit of each in octets is `longest`, and of standard error `longest_errors` where that is given.
        """
        return self._drive_generator_until_answer(
            self.query_with_errors_as_generator(
                commands, longest, longest if longest_errors is None else longest_errors
            )
        )

    def query_with_errors_as_generator(
        self, commands: bytes, longest: int, longest_errors: int
    ) -> Generator["Program", None, tuple[bytes, bytes]]:
        """The same, which gives way where it has to wait until the program can be read or written (`fileno`)."""
        self._most, self._kept, self._errors = longest_errors, longest_errors + 1, b""
        answer = yield from self._answer_until_total_as_generator(commands, longest)
        # All that was printed before the line that ends an answer is in the pipe by then.
        while self._read_or_write_ready(0):
            self._raise_if_errors_too_long()
        errors, self._errors = self._errors, b""
        return answer, errors

    def wait_until_pipes_ready_or_signal(self) -> None:
        """Waits until the program can be read or written, or a signal comes."""
        self._selector.select()

    def _answer_until_total_as_generator(self, commands: bytes, longest: int) -> Generator["Program", None, bytes]:
        self._queue_commands_and_write_what_fits(commands)
        seen = 0
        while True:
            start = self._got.find(b"\ntotal ", seen)
            end = self._got.find(b"\n", start + 1) if start >= 0 else -1
            if end >= 0:
                return self._take_printed_up_to(end)
            seen = max(0, start if start >= 0 else len(self._got) - len(b"\ntotal "))
            if len(self._got) > longest:
                raise ProgramEndedError(f"{self._name} answered more than was asked")
            self._raise_if_errors_too_long()
            if not self._is_watched(self._out):
                raise ProgramEndedError(self._await_end_and_describe_reason())
            yield self
            self._read_or_write_ready(0)

    def _drive_generator_until_answer(self, steps: Generator["Program", None, T]) -> T:
        while True:
            try:
                next(steps)
            except StopIteration as end:
                answer: T = end.value
                return answer
            self.wait_until_pipes_ready_or_signal()

    def _raise_if_errors_too_long(self) -> None:
        if len(self._errors) > self._most:
            raise ProgramEndedError(f"{self._name} said more than was asked")

    def send_last_commands_and_read_errors(self, commands: bytes, longest: int) -> bytes:
        """The standard error of the program at these commands. They are its last, and it ends."""
        self._run_to_regular_end_or_refuse(commands, longest)
        return self._errors

    def record_script_with_first_error_line(self, text: bytes, longest: int) -> tuple[bytes, str]:
        """The output of the program for this text, which is all of its input, and its first line on standard error."""
        self._run_to_regular_end_or_refuse(text, longest)
        return bytes(self._got[1:]), printable_octets(self._errors.partition(b"\n")[0], _SHOWN)

    def run_on_input(self, given: bytes, longest: int) -> ProcessOutput:
        """All that the program writes of this, which is all of its input, and its status."""
        status = self._run_to_end_and_get_status(given, longest)
        return ProcessOutput(bytes(self._got[1:]), self._errors, str(status))

    def read_titled_section_per_file(self, count: int, longest: int) -> Iterator[tuple[bytes, bytes]]:
        """The sections that the program writes of so many files: each title's first word, and the lines after it."""
        self._is_last = True
        self._queue_commands_and_write_what_fits(b"")
        for _ in range(count):
            while (section := self._take_next_section_if_whole()) is None:
                if len(self._got) > longest:
                    raise ProgramEndedError(f"{self._name} wrote more than was asked")
                if not self._is_watched(self._out):
                    raise ProgramEndedError(self._await_end_and_describe_reason())
                self._read_or_write_ready(None)
            yield section

    def _take_next_section_if_whole(self) -> tuple[bytes, bytes] | None:
        """The next title, with the lines after it, once all of them are there."""
        end = self._got.find(b"\n", 1)
        if end < 0:
            return None
        words = bytes(self._got[1:end]).split(b" ", 2)
        if len(words) < 3 or not words[1].isdigit():
            raise ProgramEndedError(f"{self._name} wrote no title")
        lines = self._got.split(b"\n", int(words[1]) + 2)
        if len(lines) < int(words[1]) + 3:
            return None
        self._take_printed_up_to(len(self._got) - len(lines[-1]) - 1)
        return words[0], b"".join(bytes(line) + b"\n" for line in lines[2:-1])

    def _run_to_regular_end_or_refuse(self, commands: bytes, longest: int) -> None:
        """The same, of a program that has to end regularly."""
        status = self._run_to_end_and_get_status(commands, longest)
        if status not in _REGULAR:
            raise ProgramEndedError(
                (self._last_or_refusing_error_line() if status > 0 else "") or self._kill_and_describe_end()
            )

    def _run_to_end_and_get_status(self, commands: bytes, longest: int) -> int:
        """Writes the last of the input, and reads what the program writes until it has ended; its status."""
        self._kept = longest + 1
        self._is_last = True
        self._queue_commands_and_write_what_fits(commands)
        while self._is_watched(self._out) or self._is_watched(self._err):
            self._read_or_write_ready(None)
            if max(len(self._errors), len(self._got)) > longest:
                raise ProgramEndedError(f"{self._name} said more than was asked")
        if not self._ends_within_grace():
            raise ProgramEndedError(f"{self._name} closed its output")
        return self._kill_group_and_get_status()

    def fileno(self) -> int:
        """The descriptor that can be read once a program that nobody queries has printed something, or has ended."""
        return self._selector.fileno()

    def require_alive_and_silent(self) -> None:
        """Raises ProgramEndedError where the program has ended since the last query, or prints what nobody queried."""
        self._read_or_write_ready(0)
        if not self._is_watched(self._out):
            raise ProgramEndedError(self._await_end_and_describe_reason())
        if len(self._got) > 1:
            raise ProgramEndedError(f"{self._name} answered more than was asked")

    def kill_and_close(self) -> None:
        """Ends the program."""
        self._kill_group_and_get_status()
        self._selector.close()
        for pipe in (self._process.stdin, self._process.stdout, self._process.stderr):
            if pipe is not None:
                pipe.close()

    def _take_printed_up_to(self, end: int) -> bytes:
        """Takes all that was printed up to this newline; that newline stays, before what comes next."""
        answer = bytes(self._got[1 : end + 1])
        del self._got[:end]
        return answer

    def _queue_commands_and_write_what_fits(self, commands: bytes) -> None:
        """Writes as much of the commands as the pipe takes; the rest is written while answers are read."""
        self._unsent += commands
        self._write_unsent_and_close_if_last()
        if self._unsent and not self._is_watched(self._in):
            self._selector.register(self._in, selectors.EVENT_WRITE)

    def _read_or_write_ready(self, seconds: float | None) -> bool:
        """Waits until something can be read or written, and does it; whether there was anything in that time."""
        ready = self._selector.select(seconds)
        for key, _ in ready:
            if key.fd == self._in:
                self._write_unsent_and_close_if_last()
            elif key.fd == self._out:
                self._got += self._read_octets_or_unwatch_at_end(self._out)
            elif key.fd == self._err:
                self._errors = (self._errors + self._read_octets_or_unwatch_at_end(self._err))[-self._kept :]
        self._stop.raise_if_stopped()
        return bool(ready)

    def _write_unsent_and_close_if_last(self) -> None:
        try:
            self._unsent = self._unsent[os.write(self._in, self._unsent) :]
        except BlockingIOError:
            return
        except OSError:
            # A program that reads no more has ended, or is about to answer.
            self._unsent = b""
        if not self._unsent:
            if self._is_watched(self._in):
                self._selector.unregister(self._in)
            if self._is_last and self._process.stdin is not None:
                self._process.stdin.close()

    def _read_octets_or_unwatch_at_end(self, descriptor: int) -> bytes:
        try:
            octets = os.read(descriptor, _READ)
        except BlockingIOError:
            return b""
        except OSError:
            octets = b""  # as at its end
        if not octets:
            self._selector.unregister(descriptor)
        return octets

    def _is_watched(self, descriptor: int) -> bool:
        return descriptor in self._selector.get_map()

    def _await_end_and_describe_reason(self) -> str:
        """Why the program has ended: the last line that it printed, else its status."""
        until = time.monotonic() + _GRACE
        while (
            self._is_watched(self._err) and (left := until - time.monotonic()) > 0 and self._read_or_write_ready(left)
        ):
            pass
        if line := self._last_or_refusing_error_line():
            return line
        if not self._ends_within_grace():
            return f"{self._name} closed its output"
        return self._kill_and_describe_end()

    def _last_or_refusing_error_line(self) -> str:
        """The last line that the program printed, if it printed one; the first where it refuses its options."""
        lines = [line for line in self._errors.split(b"\n") if line.strip() and not line.startswith(_OF_JOBS)]
        if not lines:
            return ""
        return printable_octets(lines[0] if lines[0].startswith(_REFUSES) else lines[-1], _SHOWN)

    def _kill_and_describe_end(self) -> str:
        """How the program ended, by its status."""
        status = self._kill_group_and_get_status()
        if status < 0:
            return f"{self._name} was ended by {_signal_name(-status)}"
        return f"{self._name} ended with status {status}"

    def _ends_within_grace(self) -> bool:
        descriptor = os.pidfd_open(self._process.pid)
        try:
            poll = select.poll()
            poll.register(descriptor, select.POLLIN)
            return bool(poll.poll(_GRACE * 1_000))
        finally:
            os.close(descriptor)

    def _kill_group_and_get_status(self) -> int:
        """Ends all of the program's group, and answers its status; until then no other process can have its number."""
        if self._process.returncode is None:
            with contextlib.suppress(ProcessLookupError):
                os.killpg(self._process.pid, signal.SIGKILL)
        return self._process.wait()


def _set_pipes_nonblocking_and_get_filenos(process: "subprocess.Popen[bytes]") -> tuple[int, int, int]:
    pipes = (process.stdin, process.stdout, process.stderr)
    ends = [pipe.fileno() for pipe in pipes if pipe is not None]
    for end in ends:
        os.set_blocking(end, False)
        with contextlib.suppress(OSError):  # a smaller pipe does, too
            fcntl.fcntl(end, fcntl.F_SETPIPE_SZ, _PIPE)
    return ends[0], ends[1], ends[2]


def _signal_name(number: int) -> str:
    try:
        return signal.Signals(number).name
    except ValueError:
        return f"signal {number}"
