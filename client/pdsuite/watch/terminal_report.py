"""The reports on a terminal while scripts are watched: the first in full, later ones of few rows, in lines that fit."""

import textwrap
import time
from collections.abc import Callable, Mapping, Sequence
from dataclasses import replace

from pdsuite.compare.comparison import ComparedScript
from pdsuite.output.fitting import wrap_prose_in_styled_text, columns_without_autowrap, wrap_with_hanging_indent
from pdsuite.output.octets import printable_path
from pdsuite.output.styled_text import StyledText
from pdsuite.reports.plain import PlainFormatter, totals_style
from pdsuite.watch.change_report import (
    ChangeReport,
    gone_paths,
    gone_row,
    outcomes_with_changed_rows_passing_last,
    outcomes_with_line_and_new_row_or_explanation,
    render_script_entries,
    totals_of,
)
from pdsuite.watch.folder_moves import Move, Outcomes, folder_moves_between
from pdsuite.watch.plan_changes import WantedScript

# So many rows of a kind are shown, and so many blocks.
_MOST = 10


class TerminalReport(ChangeReport):
    """A few of what changed, and the command that shows all; `width` is that of the terminal."""

    is_brief = True

    def __init__(self, width: Callable[[], int], command: str) -> None:
        self._width = width
        self._command = command

    def first_report(self, outcomes: Outcomes, every: bool, seconds: float) -> StyledText:
        """Each script that doesn't pass, or every script; then the totals."""
        return self._wrap_to_width(render_script_entries(outcomes.values(), every)).append_text(
            self.totals_line(outcomes, seconds)
        )

    def folder_moves_if_report_shows_them(
        self, before: Outcomes, after: Outcomes, had: Mapping[str, WantedScript], has: Mapping[str, WantedScript]
    ) -> Sequence[Move]:
        """The folders that moved."""
        return folder_moves_between(before, after, had, has)

    def time_of_day_head_if_any(self) -> StyledText:
        """A line with the time of day, across the terminal."""
        return StyledText(
            [(f"\u2500\u2500 {time.strftime('%H:%M:%S')} ".ljust(self._line_width(), "\u2500") + "\n", "dim")]
        )

    def render_changed_and_gone_rows(self, before: Outcomes, after: Outcomes, moves: Sequence[Move]) -> StyledText:
        """The folders that moved, and a few of the other rows of each kind."""
        known = _outcomes_at_moved_paths(before, moves)
        text = StyledText()
        for move in moves:
            text.append_text(_move_line(move, before, after))
        rows = outcomes_with_changed_rows_passing_last(known, after)
        form = PlainFormatter(True)
        text.append_text(
            _first_rows_and_count_of_rest([form.row_and_warnings(it) for it in rows if not it.lets_run_pass])
        )
        text.append_text(_first_rows_and_count_of_rest([form.row_and_warnings(it) for it in rows if it.lets_run_pass]))
        return text.append_text(_first_rows_and_count_of_rest(list(map(gone_row, gone_paths(known, after)))))

    def changed_explanations(self, before: Outcomes, after: Outcomes, moves: Sequence[Move]) -> StyledText:
        """The explanations of a few scripts, and how many more there are."""
        explained = outcomes_with_line_and_new_row_or_explanation(_outcomes_at_moved_paths(before, moves), after)
        text = self._wrap_to_width(render_script_entries(explained[:_MOST], False))
        left = len(explained) - _MOST
        return text.append(f"{left:,} more: {self._command}\n", "bold") if left > 0 else text

    def turned_entries(self, scripts: Sequence[ComparedScript]) -> StyledText:
        """A few of the scripts that another sender turned, and how many more there are."""
        text = self._wrap_to_width(super().turned_entries(scripts[:_MOST]))
        left = len(scripts) - _MOST
        return text.append(f"{left:,} more turned\n", "bold") if left > 0 else text

    def totals_line(self, outcomes: Outcomes, seconds: float) -> StyledText:
        """The totals that aren't 0."""
        totals = totals_of(outcomes, self.is_unproved)
        line = f"{totals.nonzero_counts_text()} in {seconds:.2f} s{totals.unproved_mark}"
        return StyledText([("\n".join(textwrap.wrap(line, self._line_width())) + "\n", totals_style(totals))])

    def outdated_sender_notice(self, why: str) -> StyledText:
        """That the sender doesn't stand any more of which all rows are, and why, in lines that fit."""
        lines = super().outdated_sender_notice(why).text_without_styles.splitlines()
        return StyledText([(f"{wrap_with_hanging_indent(line, self._line_width())}\n", "dim") for line in lines])

    def _line_width(self) -> int:
        """How long a line may be."""
        return columns_without_autowrap(self._width())

    def _wrap_to_width(self, text: StyledText) -> StyledText:
        """The text in lines that fit."""
        return wrap_prose_in_styled_text(text, self._line_width())


def _outcomes_at_moved_paths(before: Outcomes, moves: Sequence[Move]) -> Outcomes:
    """The outcomes that were shown, as if the scripts that moved had been where they are."""
    if not moves:
        return before
    new = {old: new for move in moves for old, new in move.scripts.items()}
    return {new.get(path, path): replace(it, path=new.get(path, path)) for path, it in before.items()}


def _move_line(move: Move, before: Outcomes, after: Outcomes) -> StyledText:
    """The line of a folder that moved."""
    count = len(move.scripts)
    others = sum(before[old].row != after[new].row for old, new in move.scripts.items())
    verdicts = f"{others:,} with another row" if others else "same verdicts" if count > 1 else "same verdict"
    scripts = f"{count:,} {'scripts' if count > 1 else 'script'}"
    return StyledText(
        [(f"{printable_path(move.old)}/ moved to {printable_path(move.new)}/: {scripts}, {verdicts}\n", "")]
    )


def _first_rows_and_count_of_rest(rows: Sequence[StyledText]) -> StyledText:
    """A few rows, and how many more there are."""
    text = StyledText()
    for row in rows[:_MOST]:
        text.append_text(row)
    left = len(rows) - _MOST
    return text.append(f"and {left:,} more\n", "dim") if left > 0 else text
