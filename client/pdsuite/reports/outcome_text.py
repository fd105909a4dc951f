"""A script in a report: its row in words, the lines below that, and its warnings."""

from pdsuite.output.octets import printable_octets, printable_path
from pdsuite.programs.verdict import Verdict
from pdsuite.run.outcomes import ScriptOutcome

_MOST = 200
_REASON = "reason: "
_RULE = "rule: "
_EXPECTED = "expected: "
_END = "at the end of the text"


def path_and_line(outcome: ScriptOutcome) -> str:
    """The path, with the line that the row is about."""
    path = printable_path(outcome.path)
    return path if outcome.explained_or_row_line_number is None else f"{path}:{outcome.explained_or_row_line_number}"


def row_meaning_suffix_if_explained(outcome: ScriptOutcome) -> str:
    """The words after the row: its meaning, where that is explained."""
    why = _expected_syntax_or_reason(outcome) if outcome.row.verdict is Verdict.SYNTAX else outcome.why
    return f": {why}" if why else ""


def row_text_with_expected_row(outcome: ScriptOutcome) -> str:
    """The row of an outcome, with the one that is expected of it, where one is."""
    if outcome.expected is None or not (outcome.is_known_failure or outcome.has_unexpected_row):
        return str(outcome.row)
    if outcome.is_known_failure:
        return f"known: {outcome.row} ({outcome.expected.reason})"
    row = "passes" if outcome.row.verdict is Verdict.PASS else str(outcome.row)
    return f'{row}, though "{outcome.expected.row}" is expected ({outcome.expected.reason})'


def place_row_and_meaning_line(outcome: ScriptOutcome) -> str:
    """The line of an outcome: its place, its row and what that means."""
    return f"{path_and_line(outcome)}: {row_text_with_expected_row(outcome)}{row_meaning_suffix_if_explained(outcome)}"


def explained_reason_or_meaning_of_row(outcome: ScriptOutcome) -> str:
    """Why a row is so, where that is explained: the reason, or what the row means, with the rule that stops it."""
    if outcome.row.verdict is Verdict.FAIL:
        found = (it.removeprefix(_REASON) for it in outcome.block_lines if it.startswith(_REASON))
        return next(found, outcome.why)
    if outcome.row.verdict is Verdict.SYNTAX:
        return _expected_syntax_or_reason(outcome)
    rule = next((it.removeprefix(_RULE) for it in outcome.block_lines[:1] if it.startswith(_RULE)), "")
    return f"{outcome.why}: {rule}" if rule else outcome.why


def _expected_syntax_or_reason(outcome: ScriptOutcome) -> str:
    """The tokens expected where a text that is no script breaks off, else the meaning of its row, where explained."""
    below = outcome.block_lines[1:]  # the first is the line of the text
    expected = next((it for it in below if it.startswith(_EXPECTED)), "")
    if not expected:
        return outcome.why
    return f"expected {expected.removeprefix(_EXPECTED)}" + (f" {_END}" if _END in below else "")


def one_line_summary(outcome: ScriptOutcome) -> str:
    """An outcome in one line: its place, its row and the reason."""
    why = explained_reason_or_meaning_of_row(outcome)
    return f"{path_and_line(outcome)}: {row_text_with_expected_row(outcome)}" + (f": {why}" if why else "")


def warning_texts(outcome: ScriptOutcome) -> list[str]:
    """The warnings of a script, in words."""
    end = " (strict)" if outcome.is_strict else ""
    return [f"passes, but {it}{end}" for it in outcome.warnings]


def warning_lines_of(outcome: ScriptOutcome) -> list[str]:
    """A line for each warning: its place, and what it is."""
    return [f"{path_and_line(outcome)}: {it}" for it in warning_texts(outcome)]


def explanation_or_line_below_row(outcome: ScriptOutcome) -> list[str]:
    """The lines below an outcome's row: its explanation, else the line of the script that it names."""
    if outcome.block_lines:
        return list(outcome.block_lines)
    return [] if outcome.text is None else [printable_octets(outcome.text, _MOST)]
