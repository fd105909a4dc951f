"""Standard output, a terminal or plain octets; and standard error."""

import errno
import os
import sys
from typing import TYPE_CHECKING


from pdsuite.faults import error_reason
from pdsuite.output.styled_text import StyledText

if TYPE_CHECKING:
    from pdsuite.output.terminal import Terminal


class OutputError(Exception):
    """Standard output takes no more."""

    def __init__(self, error: OSError) -> None:
        super().__init__(error_reason(error))
        self.is_reader_gone = error.errno == errno.EPIPE


class Screen:
    """Where reports are written. Only on a terminal are there colours, and a line that says how far the work is."""

    def __init__(self, color: bool, progress: bool) -> None:
        self._terminal = _import_and_make_terminal(color, progress) if sys.stdout.isatty() else None

    def __enter__(self) -> "Screen":
        return self

    def __exit__(self, *error: object) -> None:
        self.clear_live_lines()

    @property
    def terminal_columns_if_any(self) -> int | None:
        """How many columns a terminal has; None where there is none."""
        return None if self._terminal is None else self._terminal.width

    def show(self, text: StyledText) -> None:
        """Writes a part of a report."""
        plain = text.text_without_styles
        if not plain:
            return
        try:
            if self._terminal is None:
                sys.stdout.write(plain)
                sys.stdout.flush()
            else:
                self._terminal.show(text)
        except OSError as error:
            raise OutputError(error) from error

    def print_note_on_stderr(self, line: str) -> None:
        """Says on standard error what no report holds."""
        if self._terminal is None:
            print_line_on_stderr(line)
            return
        was_live = self._terminal.clear_live_lines_and_check_bottom()
        print_line_on_stderr(line)
        if was_live:
            self._terminal.restore_bottom_line()

    def show_progress(self, done: int, count: int, what: str = "scripts") -> None:
        """Says how many of the scripts, or of other things, are done."""
        if self._terminal is not None:
            self._terminal.show_progress(done, count, what)

    def keep_bottom_line(self, line: str) -> None:
        """Keeps a line below all that is shown."""
        if self._terminal is not None:
            self._terminal.keep_bottom_line(line)

    def clear_live_lines(self) -> None:
        """Takes the line of progress, and the one at the bottom, away."""
        if self._terminal is not None:
            self._terminal.clear_live_lines_and_check_bottom()


def _import_and_make_terminal(color: bool, progress: bool) -> "Terminal":
    # Only where there is a terminal is what draws on it paid for.
    from pdsuite.output.terminal import Terminal

    return Terminal(color, progress)


def print_line_on_stderr(line: str) -> None:
    """Writes a line on standard error, where there is one."""
    if sys.stderr is not None:
        try:
            print(line, file=sys.stderr, flush=True)
        except OSError:
            pass  # nobody reads it


def is_no_color_unset() -> bool:
    """Whether the environment lets colours be: NO_COLOR, if it isn't empty, forbids them."""
    return not os.environ.get("NO_COLOR")
