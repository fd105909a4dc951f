"""A report while it grows: outcomes come run by run, and are shown in the order of paths."""

from collections.abc import Iterable, Iterator, Sequence
from dataclasses import replace


from pdsuite.output.screen import Screen
from pdsuite.output.styled_text import StyledText
from pdsuite.programs.verdict import Row, Verdict
from pdsuite.reports.formatter import Formatter
from pdsuite.run.batches import SuiteScript, make_outcome_with_row_line
from pdsuite.run.outcomes import ScriptOutcome, OutcomeTotals


class Report:
    """The outcomes that were shown, and those that wait for earlier ones."""

    def __init__(
        self, scripts: Sequence[SuiteScript], form: Formatter, screen: Screen, is_unproved: bool = False
    ) -> None:
        self.outcomes: list[ScriptOutcome] = []
        self.is_unproved = is_unproved
        self._scripts = scripts
        self._form = form
        self._screen = screen
        self._waiting: dict[int, ScriptOutcome] = {}

    def show_opening(self) -> None:
        """Shows what stands before all scripts."""
        self._screen.show(self._form.opening_before_scripts(len(self._scripts)))
        self._screen.show_progress(0, len(self._scripts))

    def show_outcomes_in_order(self, outcomes: Iterable[tuple[SuiteScript, ScriptOutcome]]) -> None:
        """Shows outcomes, as soon as all before them were shown."""
        for script, outcome in outcomes:
            self._waiting[script.index] = outcome
        self._show_and_keep_outcomes(list(self._take_ready_outcomes_in_order()))
        done = len(self.outcomes) + len(self._waiting)
        self._screen.show_progress(done, len(self._scripts))

    def unshown_or_not_run_outcomes(self) -> list[ScriptOutcome]:
        """The outcomes that weren't shown: those that still wait, and those of scripts that weren't run."""
        return [self._waiting.get(it.index, _not_run_outcome(it)) for it in self._scripts[len(self.outcomes) :]]

    def show_rest_and_totals(self, seconds: float) -> OutcomeTotals:
        """Shows what is left, and the totals."""
        self._screen.clear_live_lines()
        self._show_and_keep_outcomes(self.unshown_or_not_run_outcomes())
        totals = self.outcome_totals_with_unproved_flag(self.outcomes)
        self._screen.show(self._form.totals_after_scripts(totals, seconds))
        return totals

    def outcome_totals_with_unproved_flag(self, outcomes: Iterable[ScriptOutcome]) -> OutcomeTotals:
        """The totals of outcomes of this report."""
        return replace(OutcomeTotals.of_outcomes(outcomes), is_unproved=self.is_unproved)

    def _take_ready_outcomes_in_order(self) -> Iterator[ScriptOutcome]:
        """The outcomes that wait for none before them."""
        index = len(self.outcomes)
        while (outcome := self._waiting.pop(index, None)) is not None:
            yield outcome
            index += 1

    def _show_and_keep_outcomes(self, outcomes: Sequence[ScriptOutcome]) -> None:
        text = StyledText()
        for number, outcome in enumerate(outcomes, len(self.outcomes) + 1):
            if (entry := self._form.streamed_script_entry_or_none(number, outcome)) is not None:
                text.append_text(entry)
        self.outcomes.extend(outcomes)
        self._screen.show(text)


def _not_run_outcome(script: SuiteScript) -> ScriptOutcome:
    return make_outcome_with_row_line(script, Row(Verdict.NOT_RUN))
