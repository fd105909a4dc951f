"""A terminal: colours, and a line at the bottom that comes and goes."""

from rich.console import Console
from rich.live import Live
from rich.progress import BarColumn, MofNCompleteColumn, Progress, TextColumn
from rich.text import Text

from pdsuite.output.styled_text import StyledText


class Terminal:
    """Shows text that stays on a terminal, and below it how far the work is, or another line."""

    def __init__(self, color: bool, progress: bool) -> None:
        # Where colours are neither on nor off, rich heeds a NO_COLOR that is empty, too.
        self._console = Console(
            force_terminal=True, color_system="auto" if color else None, no_color=not color, highlight=False
        )
        self._progress = self._make_progress_line() if progress else None
        self._task = None if self._progress is None else self._progress.add_task("scripts")
        self._live = self._make_bottom_line_live_display()

    @property
    def width(self) -> int:
        """How many columns it has now."""
        return self._console.width

    def show(self, text: StyledText) -> None:
        """Writes a text."""
        self._console.print(Text.assemble(*text.pieces), end="", soft_wrap=True)

    def show_progress(self, done: int, count: int, what: str) -> None:
        """Says how many of the scripts, or of other things, are done."""
        if self._progress is not None and self._task is not None:
            self._progress.update(self._task, completed=done, total=count, description=what)
            if not self._progress.live.is_started:
                self._progress.start()
            self._progress.refresh()

    def keep_bottom_line(self, line: str) -> None:
        """Keeps a line below all that is shown."""
        self._live.update(Text(line, "dim", no_wrap=True, overflow="ellipsis"))
        if not self._live.is_started:
            self._live.start()
        self._live.refresh()

    def clear_live_lines_and_check_bottom(self) -> bool:
        """Takes the line of progress, and the one at the bottom, away; whether there was one at the bottom."""
        if self._progress is not None and self._progress.live.is_started:
            self._progress.stop()
        was_live = self._live.is_started
        if was_live:
            self._live.stop()
        return was_live

    def restore_bottom_line(self) -> None:
        """Shows the line at the bottom again."""
        self._live.start(refresh=True)

    def _make_bottom_line_live_display(self) -> Live:
        return Live(
            console=self._console, auto_refresh=False, transient=True, redirect_stdout=False, redirect_stderr=False
        )

    def _make_progress_line(self) -> Progress:
        parts = (BarColumn(), MofNCompleteColumn(), TextColumn("{task.description}"))
        return Progress(*parts, console=self._console, auto_refresh=False, transient=True)
