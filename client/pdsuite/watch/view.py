"""The view of scripts that are watched: what was shown, and what each report shows beside that."""

import time
from collections.abc import Callable, Iterable, Iterator, Mapping, Sequence
from dataclasses import replace
from typing import Protocol

from pdsuite.compare.comparison import ComparedScript
from pdsuite.output.screen import Screen
from pdsuite.output.styled_text import StyledText
from pdsuite.programs.lookup import SenderChangedError
from pdsuite.programs.verdict import Row, Verdict
from pdsuite.run.outcomes import ScriptOutcome
from pdsuite.watch.change_report import (
    ChangeReport,
    mark_as_of_sender_before,
    outcomes_with_changed_rows_passing_last,
    totals_of,
)
from pdsuite.watch.folder_moves import Move, Outcomes
from pdsuite.watch.plan_changes import WantedScript
from pdsuite.watch.turned_scripts import ShownScripts

_NO_SCRIPT = 2
_FAULT = 2
_NOT_RUN = Row(Verdict.NOT_RUN)

Wanted = Mapping[str, WantedScript]


class Explainer(Protocol):
    """Knows the explanations of scripts."""

    def outcome_with_explanation(self, outcome: ScriptOutcome, wanted: WantedScript) -> ScriptOutcome:
        """An outcome with its explanation."""


# The scripts that turned, by what was shown of them and by what is now.
Compare = Callable[[ShownScripts, ShownScripts], Sequence[ComparedScript]]


def _check_nothing() -> None:
    """Where programs stay as they are."""


class View:
    """Shows what changed, and keeps the outcomes that were shown last."""

    def __init__(
        self,
        screen: Screen,
        explainer: Explainer | None,
        every: bool,
        change_report: ChangeReport,
        of_known: bool = False,
    ) -> None:
        self.outcomes: Outcomes = {}
        self.turned: Sequence[ComparedScript] = ()  # those that the sender turned, and that are as they were then
        self._status: int | None = None
        self._screen = screen
        self._explainer = explainer
        self._every = every
        self._change_report = change_report
        self._of_known = of_known
        self._wanted: Wanted = {}
        self._is_current = True
        self._marked: set[str] = set()  # the scripts whose last row was shown as one of the sender before
        self._turn: str | None = None  # what is shown of another sender before its first report
        self._compare: Compare | None = None

    @property
    def last_exit_status_with_outdated_as_fault(self) -> int | None:
        """The exit status of the last report, if there was one: 2 where its sender doesn't stand any more."""
        return self._status if self._status is None or self._is_current else _FAULT

    def say_sender_outdated(self, why: str) -> None:
        """Says that the sender doesn't stand any more of which all rows are."""
        if self._is_current and self._status is not None:
            self._screen.show(
                self._change_report.time_of_day_head_if_any().append_text(
                    self._change_report.outdated_sender_notice(why)
                )
            )
        self._is_current = False
        self.show_progress("")

    def say_sender_refused(self, lines: Sequence[str]) -> None:
        """Says why no sender can be built, or be proved."""
        self._screen.show(
            self._change_report.time_of_day_head_if_any().append_text(self._change_report.refused_sender_notice(lines))
        )
        self.show_progress("")

    def turn_to_sender(
        self, explainer: Explainer, words: str, is_unproved: bool = False, compare: "Compare | None" = None
    ) -> None:
        """Goes over to a sender that stands.

        Its first report begins with these words, and ends with the scripts that turned, if `compare` finds these.
        """
        self._explainer = explainer
        self._compare = compare
        self._change_report.is_unproved = is_unproved
        self._is_current = True
        self._turn = words
        self.show_progress("")

    def explain_and_show_changed_outcomes(
        self,
        outcomes: Outcomes,
        wanted: Wanted,
        begin: float,
        is_strict: Callable[[str], bool] = lambda path: False,
        check: Callable[[], None] = _check_nothing,
    ) -> None:
        """Shows what changed, with what is to be warned of at the ends of scripts that pass.

        `check` raises SenderChangedError where what was printed isn't surely of the program whose rows these are.
        """
        passing = self._explain_outcomes((it for it in outcomes.values() if it.row.verdict is Verdict.PASS), wanted)
        put = {it.path: replace(it, is_strict=is_strict(it.path)) for it in passing if it.at_end}
        check()
        self._show_changed_rows_then_explanations({**outcomes, **put}, wanted, begin, check)

    def show_progress(self, doing: str) -> None:
        """Keeps at the bottom of a terminal how many scripts pass, and what is running."""
        totals = totals_of(self.outcomes)
        passing = (
            ""
            if self._status is None
            else f"{totals.passing_count_without_strict_warnings:,} of {totals.script_count:,} pass"
        )
        if passing and not (self._is_current and self._turn is None):
            passing += " by the sender before"
        self._screen.keep_bottom_line(", ".join(it for it in (passing, doing) if it))

    def _show_changed_rows_then_explanations(
        self, outcomes: Outcomes, wanted: Wanted, begin: float, check: Callable[[], None]
    ) -> None:
        """Shows what changed: the rows at once, their explanations once these are there; at first all in one."""
        outcomes = self._explain_syntax_faults(outcomes, wanted)
        check()
        before = self._shown_outcomes_voiding_outdated_rows()
        rows, moves = StyledText(), self._change_report.folder_moves_if_report_shows_them(
            before, outcomes, self._wanted, wanted
        )
        if self._status is not None:
            rows = self._change_report.render_changed_and_gone_rows(before, outcomes, moves)
        if rows.text_without_styles:
            self._screen.show(
                self._report_head_with_sender_notice().append_text(self._text_marked_unless_sender_current(rows))
            )
            self._note_sender_of_rows(before, outcomes)
        after = {
            path: self.outcomes[path] if self._is_explanation_current(it, wanted) else it
            for path, it in outcomes.items()
        }
        unexplained = [it for path, it in after.items() if self._needs_explanation(it) and it is outcomes[path]]
        after |= {it.path: it for it in self._explain_outcomes(unexplained, wanted)}
        try:
            turned = self._find_turned_scripts(after, wanted)
            check()
        except SenderChangedError:
            # The rows were shown; their explanations may be another program's.
            self.outcomes, self._wanted = outcomes, wanted
            raise
        self._show_explanations_totals_and_note_state(
            before, after, bool(rows.text_without_styles), moves, begin, turned or ()
        )
        self._keep_new_or_still_same_turned_scripts(turned, after, wanted)
        self._wanted = wanted

    def _explain_syntax_faults(self, outcomes: Outcomes, wanted: Wanted) -> Outcomes:
        """The outcomes, those of texts that are no scripts with explanations: these say where these break off."""
        broken = (
            it
            for it in outcomes.values()
            if it.row.verdict is Verdict.SYNTAX and not self._is_explanation_current(it, wanted)
        )
        return {**outcomes, **{it.path: it for it in self._explain_outcomes(broken, wanted)}}

    def _find_turned_scripts(self, after: Outcomes, wanted: Wanted) -> Sequence[ComparedScript] | None:
        """The scripts that another sender turned; None where there is no other."""
        if self._compare is None:
            return None
        found = self._compare(ShownScripts(self.outcomes, self._wanted), ShownScripts(after, wanted))
        self._compare = None
        return found

    def _keep_new_or_still_same_turned_scripts(
        self, found: Sequence[ComparedScript] | None, after: Outcomes, wanted: Wanted
    ) -> None:
        """Keeps the scripts that turned: those that were found, or of those before the ones that are as they were."""
        if found is None:
            same = [it for it in self.turned if it.path in after and after[it.path].row == it.after.row]
            found = [it for it in same if wanted.get(it.path) == self._wanted.get(it.path)]
            if len(found) == len(self.turned):
                return
        self.turned = found

    def _show_explanations_totals_and_note_state(
        self,
        before: Outcomes,
        after: Outcomes,
        has_changed: bool,
        moves: Sequence[Move],
        begin: float,
        turned: Sequence[ComparedScript],
    ) -> None:
        """Shows what stands after the rows, and notes what was shown."""
        compared = self._change_report.turned_entries(turned)
        if self._status is None:
            first = self._change_report.first_report(after, self._every, time.monotonic() - begin)
            self._screen.show(self._text_marked_unless_sender_current(compared.append_text(first)))
        else:
            shown_paths = {it.path for it in turned} if self._change_report.is_brief else set()
            others = {path: it for path, it in after.items() if path not in shown_paths}
            blocks = compared.append_text(self._change_report.changed_explanations(before, others, moves))
            head = StyledText() if has_changed else self._report_head_with_sender_notice()
            if has_changed or blocks.text_without_styles or self._turn is not None:
                foot = self._change_report.totals_line(after, time.monotonic() - begin)
                self._screen.show(head.append_text(self._text_marked_unless_sender_current(blocks.append_text(foot))))
        if not after and (self.outcomes or self._status is None):
            self._screen.print_note_on_stderr("pdsuite: no script found")
        self.outcomes = after
        self._turn = None
        self._status = totals_of(after).pass_fail_or_error_exit_status() if after else _NO_SCRIPT
        self.show_progress("")

    def _report_head_with_sender_notice(self) -> StyledText:
        """The head of a report that isn't the first, with the notice of another sender if there is one."""
        head = self._change_report.time_of_day_head_if_any()
        return head if self._turn is None else head.append_text(self._change_report.new_sender_notice(self._turn))

    def _shown_outcomes_voiding_outdated_rows(self) -> Outcomes:
        """The outcomes that were shown; where a sender stands, no row of the one before counts as shown."""
        if not self._is_current:
            return self.outcomes
        return {path: replace(it, row=_NOT_RUN) if path in self._marked else it for path, it in self.outcomes.items()}

    def _note_sender_of_rows(self, before: Outcomes, outcomes: Outcomes) -> None:
        """Notes whose rows were shown of which sender."""
        if self._is_current:
            self._marked.clear()
        else:
            self._marked.update(it.path for it in outcomes_with_changed_rows_passing_last(before, outcomes))

    def _text_marked_unless_sender_current(self, text: StyledText) -> StyledText:
        """A part of a report, which says of which sender it is where that doesn't stand."""
        return text if self._is_current else mark_as_of_sender_before(text)

    def _is_explanation_current(self, outcome: ScriptOutcome, wanted: Wanted) -> bool:
        """Whether the explanation of a script is of this outcome."""
        path = outcome.path
        old = self.outcomes.get(path)
        if old is None or self._turn is not None:
            return False
        if (old.row, old.lets_run_pass, old.expected) != (outcome.row, outcome.lets_run_pass, outcome.expected):
            return False
        return self._wanted.get(path) == wanted.get(path)

    def _needs_explanation(self, outcome: ScriptOutcome) -> bool:
        """Whether an outcome needs an explanation; of a known one nothing is shown but on the page."""
        return (
            outcome.row.line is not None
            and not outcome.block_lines
            and (self._of_known or not outcome.is_known_failure)
        )

    def _explain_outcomes(self, outcomes: Iterable[ScriptOutcome], wanted: Wanted) -> Iterator[ScriptOutcome]:
        """Outcomes with explanations."""
        if self._explainer is not None:
            yield from (self._explainer.outcome_with_explanation(it, wanted[it.path]) for it in outcomes)
