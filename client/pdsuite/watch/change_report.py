"""The reports while scripts are watched: the first as `pdsuite run` shows it, and later ones of what changed."""

from collections.abc import Iterable, Iterator, Mapping, Sequence
from dataclasses import replace

from pdsuite.compare.comparison import ComparedScript
from pdsuite.output.octets import printable_path
from pdsuite.output.styled_text import StyledText
from pdsuite.programs.verdict import Verdict
from pdsuite.reports.comparison import compared_script_entry
from pdsuite.reports.plain import PlainFormatter
from pdsuite.run.outcomes import CountedAs, ScriptOutcome, OutcomeTotals
from pdsuite.watch.folder_moves import Move, Outcomes
from pdsuite.watch.plan_changes import WantedScript


_LEFT = "the sender has changed: all rows above are of the sender before"
BEFORE = " (by the sender before)"


class ChangeReport:
    """All of what changed, as programs that read it need it."""

    is_brief = False  # whether a script that another sender turned is reported once
    is_unproved = False  # whether the sender isn't proved that runs scripts

    def first_report(self, outcomes: Outcomes, every: bool, seconds: float) -> StyledText:
        """Each script that doesn't pass, or every script; then the totals."""
        return render_script_entries(outcomes.values(), every).append_text(self.totals_line(outcomes, seconds))

    def folder_moves_if_report_shows_them(
        self, before: Outcomes, after: Outcomes, had: Mapping[str, WantedScript], has: Mapping[str, WantedScript]
    ) -> Sequence[Move]:
        """The folders that are reported to have moved."""
        return ()

    def time_of_day_head_if_any(self) -> StyledText:
        """The head of a report that isn't the first, if it has one."""
        return StyledText()

    def render_changed_and_gone_rows(self, before: Outcomes, after: Outcomes, moves: Sequence[Move]) -> StyledText:
        """The rows that changed, without their explanations: first of those that don't pass, last what went."""
        form = PlainFormatter(True)
        text = StyledText()
        for outcome in outcomes_with_changed_rows_passing_last(before, after):
            text.append_text(form.row_and_warnings(outcome))
        for path in gone_paths(before, after):
            text.append_text(gone_row(path))
        return text

    def changed_explanations(self, before: Outcomes, after: Outcomes, moves: Sequence[Move]) -> StyledText:
        """The explanations of the rows that changed, and of others where they are others."""
        return render_script_entries(outcomes_with_line_and_new_row_or_explanation(before, after), False)

    def turned_entries(self, scripts: Sequence[ComparedScript]) -> StyledText:
        """The scripts that another sender turned."""
        text = StyledText()
        for it in scripts:
            text.append_text(compared_script_entry(it))
        return text

    def totals_line(self, outcomes: Outcomes, seconds: float) -> StyledText:
        """The totals."""
        return PlainFormatter(True).totals_after_scripts(totals_of(outcomes, self.is_unproved), seconds)

    def outdated_sender_notice(self, why: str) -> StyledText:
        """That the sender doesn't stand any more of which all rows are, and why."""
        return StyledText([(f"{_LEFT}\n  {why}\n", "dim")])

    def new_sender_notice(self, words: str) -> StyledText:
        """The notice of another sender, in these words."""
        return StyledText([(f"{words}\n", "bold")])

    def refused_sender_notice(self, lines: Sequence[str]) -> StyledText:
        """Why no sender can be built, or be proved: below the first line stand the lines that say why."""
        first, *below = lines
        return StyledText([(f"{first}\n", "bold red"), ("".join(f"  {line}\n" for line in below), "")])


def totals_of(outcomes: Outcomes, is_unproved: bool = False) -> OutcomeTotals:
    """The totals of a report."""
    return replace(OutcomeTotals.of_outcomes(outcomes.values()), is_unproved=is_unproved)


def mark_as_of_sender_before(text: StyledText) -> StyledText:
    """A part of a report that is of a sender that doesn't stand any more: each of its rows says so, and all is dim."""
    lines = text.text_without_styles.splitlines()
    marked = [line if line.startswith("  ") else f"{line}{BEFORE}" for line in lines]
    return StyledText([("".join(f"{line}\n" for line in marked), "dim")])


def outcomes_with_changed_rows_passing_last(before: Outcomes, after: Outcomes) -> list[ScriptOutcome]:
    """The outcomes whose rows changed, last those that pass or are known not to."""
    found = [it for path, it in after.items() if path not in before or _is_shown_otherwise(before[path], it)]
    return sorted(found, key=lambda it: it.counted_as in (Verdict.PASS, CountedAs.KNOWN))


def gone_paths(before: Outcomes, after: Outcomes) -> Iterator[str]:
    """The scripts that went."""
    return (path for path in before if path not in after)


def gone_row(path: str) -> StyledText:
    """The row of a script that went."""
    return StyledText([(f"{printable_path(path)}: ", "")]).append("gone\n", "dim")


def outcomes_with_line_and_new_row_or_explanation(before: Outcomes, after: Outcomes) -> list[ScriptOutcome]:
    """The outcomes of which something is to be shown: their rows changed, or their explanations did."""
    return [it for path, it in after.items() if _has_line_and_new_row_or_explanation(before.get(path), it)]


def render_script_entries(outcomes: Iterable[ScriptOutcome], every: bool) -> StyledText:
    form = PlainFormatter(every)
    text = StyledText()
    for number, outcome in enumerate(outcomes, 1):
        if (entry := form.streamed_script_entry_or_none(number, outcome)) is not None:
            text.append_text(entry)
    return text


def _is_shown_otherwise(old: ScriptOutcome, new: ScriptOutcome) -> bool:
    """Whether the row changed, the line that it names, what is warned of, or whether it makes the run fail."""
    if old is new:
        return False
    if old.warnings != new.warnings:
        return True
    return (
        old.row != new.row
        or old.text != new.text
        or old.lets_run_pass != new.lets_run_pass
        or old.expected != new.expected
    )


def _has_line_and_new_row_or_explanation(old: ScriptOutcome | None, new: ScriptOutcome) -> bool:
    if new.row.line is None:
        return False
    if old is None or _is_shown_otherwise(old, new):
        return True
    return (new.why, new.block_lines) not in ((old.why, old.block_lines), ("", ()))
