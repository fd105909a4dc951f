"""The report as GitHub's workflow commands, which stand beside the lines of a change, and its summary in Markdown."""

import os
import re
from collections import Counter
from collections.abc import Iterator, Sequence
from pathlib import Path

from pdsuite.output.octets import printable_path
from pdsuite.output.styled_text import StyledText, styled_text_of_one_plain_piece
from pdsuite.programs.verdict import Verdict
from pdsuite.reports.outcome_text import (
    explained_reason_or_meaning_of_row,
    explanation_or_line_below_row,
    place_row_and_meaning_line,
    row_text_with_expected_row,
    warning_lines_of,
    warning_texts,
)
from pdsuite.run.outcomes import CountedAs, ScriptOutcome, OutcomeTotals

SUMMARY = "GITHUB_STEP_SUMMARY"
_WORKSPACE = "GITHUB_WORKSPACE"
_GIT = ".git"
# GitHub shows so many annotations of a level for each step, and takes so many octets of a summary.
_MOST = 10
_LONGEST = 1_000_000
_PUNCTUATION = re.compile(r"[!-/:-@\[-`{-~]")
# Begins a command of GitHub's wherever it stands in a line that isn't one.
_COMMAND = "##["
_NO_COMMAND = r"\x23\x23["


class GithubFormatter:
    """Annotations of scripts that don't pass and of warnings, ten of a level; of all others their rows; the totals.

    A script that is known not to pass has a notice.
    """

    def __init__(self) -> None:
        self._counts: Counter[str] = Counter()
        self._roots: dict[str, str] = {}

    def opening_before_scripts(self, count: int) -> StyledText:
        return StyledText()

    def streamed_script_entry_or_none(self, number: int, outcome: ScriptOutcome) -> StyledText | None:
        if outcome.row.verdict is Verdict.NOT_RUN:
            return None
        lines: list[str] = []
        if outcome.counted_as is not Verdict.PASS:
            text_lines = [
                place_row_and_meaning_line(outcome),
                *(f"  {it}" for it in explanation_or_line_below_row(outcome)),
            ]
            lines.append(
                self._annotation_or_row_past_limit(
                    "notice" if outcome.is_known_failure else "error", outcome, _annotation_title(outcome), text_lines
                )
            )
        level = "error" if outcome.is_strict else "warning"
        each = zip(warning_texts(outcome), warning_lines_of(outcome))
        lines += [self._annotation_or_row_past_limit(level, outcome, title, [line]) for title, line in each]
        return styled_text_of_one_plain_piece("".join(lines)) if lines else None

    def totals_after_scripts(self, totals: OutcomeTotals, seconds: float) -> StyledText:
        left = {level: count - _MOST for level, count in self._counts.items() if count > _MOST}
        more = [f"and {count:,} more {level}{'s' if count > 1 else ''}\n" for level, count in sorted(left.items())]
        return styled_text_of_one_plain_piece("".join(more) + f"{totals} in {seconds:.2f} s{totals.unproved_mark}\n")

    def _annotation_or_row_past_limit(
        self, level: str, outcome: ScriptOutcome, title: str, text_lines: Sequence[str]
    ) -> str:
        """The command that puts lines beside a script, while GitHub shows it; else the first of them alone."""
        self._counts[level] += 1
        if self._counts[level] > _MOST:
            return f"- {text_lines[0].replace(_COMMAND, _NO_COMMAND)}\n"
        where = f"file={_escape_percent_colon_comma(printable_path(self._path_from_repository_root(outcome.path)))}"
        if outcome.explained_or_row_line_number is not None:
            where += f",line={outcome.explained_or_row_line_number}"
        message = "%0A".join(map(_escape_only_percent_signs, text_lines))
        return f"::{level} {where},title={_escape_percent_colon_comma(title)}::{message}\n"

    def _path_from_repository_root(self, path: str) -> str:
        """A path from the root of the repository that it lies in, if it lies in one."""
        whole = os.path.abspath(path)
        folder = os.path.dirname(whole)
        if folder not in self._roots:
            self._roots[folder] = _repository_root(folder)
        root = self._roots[folder]
        return os.path.relpath(whole, root) if root else path


def step_summary(outcomes: Sequence[ScriptOutcome], totals: OutcomeTotals) -> str:
    """The summary of a step in Markdown: the totals, and a row for each script that fails the run or is warned of."""
    verdicts = ", ".join(f"{count:,} {it.value}" for it, count in totals.counts.items() if count)
    warnings = f"; warnings: {totals.warnings:,}" if totals.warnings else ""
    parts = [f"### pdsuite: {totals.script_count:,} scripts: {verdicts}{warnings}{totals.unproved_mark}\n\n"]
    rows = [line for it in outcomes for line in _summary_rows_of_script(it)]
    if rows:
        parts.append("| script | line | row | reason |\n|---|---|---|---|\n")
    room = _LONGEST - sum(len(it.encode()) for it in parts)
    for number, line in enumerate(rows):
        room -= len(line.encode())
        if room < 0:
            parts.append(f"\nand {len(rows) - number:,} more\n")
            break
        parts.append(line)
    return "".join(parts)


def _annotation_title(outcome: ScriptOutcome) -> str:
    """The title of an annotation: the row, in the fewest words."""
    if outcome.is_known_failure:
        return f"known: {outcome.row}"
    return "passes, though it is expected not to" if outcome.row.verdict is Verdict.PASS else str(outcome.row)


def _summary_rows_of_script(outcome: ScriptOutcome) -> Iterator[str]:
    path, row = printable_path(outcome.path), outcome.row
    if outcome.counted_as is Verdict.ERROR:
        yield _table_row(path, "", row.verdict.value, row.word)
    elif outcome.counted_as not in (Verdict.PASS, Verdict.NOT_RUN, CountedAs.KNOWN):
        yield _table_row(
            path,
            "" if outcome.explained_or_row_line_number is None else str(outcome.explained_or_row_line_number),
            row_text_with_expected_row(outcome),
            explained_reason_or_meaning_of_row(outcome),
        )
    for warning in warning_texts(outcome):
        yield _table_row(path, "", str(row), warning)


def _table_row(*texts: str) -> str:
    """A row of a table, in which no character of a text means anything."""
    return "".join(f"| {_escape_markdown(it)} " for it in texts) + "|\n"


def _escape_markdown(text: str) -> str:
    return _PUNCTUATION.sub(r"\\\g<0>", text)


def _repository_root(folder: str) -> str:
    """The root of the repository that a folder lies in, else of what GitHub checked out; empty if it is in neither."""
    here = Path(folder)
    for above in (here, *here.parents):
        if os.path.lexists(above / _GIT):
            return str(above)
    workspace = os.environ.get(_WORKSPACE)
    return workspace if workspace and here.is_relative_to(workspace) else ""


def _escape_only_percent_signs(text: str) -> str:
    return text.replace("%", "%25")


def _escape_percent_colon_comma(text: str) -> str:
    return _escape_only_percent_signs(text).replace(":", "%3A").replace(",", "%2C")
