"""The report as one JSON object."""

import json
from collections.abc import Mapping
from dataclasses import dataclass
from functools import cache

from pdsuite.output.octets import printable_path
from pdsuite.output.styled_text import StyledText, styled_text_of_one_plain_piece
from pdsuite.programs.verdict import Verdict
from pdsuite.reports.outcome_text import explanation_or_line_below_row
from pdsuite.run.outcomes import UNPROVED, CountedAs, ScriptOutcome, OutcomeTotals
from pdsuite.scripts.settings import Settings
from pdsuite.scripts.shards import Shard

# Of the object, as docs/run.schema.json has it.
VERSION = 2
_PASS = Verdict.PASS
_encoded = json.JSONEncoder(ensure_ascii=False).encode


@dataclass(frozen=True)
class JsonFormatter:
    """An object with a list of scripts, a line for each, and their totals; and the shard, where they are one."""

    shard: Shard | None = None

    def opening_before_scripts(self, count: int) -> StyledText:
        return styled_text_of_one_plain_piece(f'{{"version": {VERSION}, "scripts": [')

    def streamed_script_entry_or_none(self, number: int, outcome: ScriptOutcome) -> StyledText:
        begin = "\n" if number == 1 else ",\n"
        return styled_text_of_one_plain_piece(
            begin + script_json(outcome, printable_path(outcome.path), outcome.explanation)
        )

    def totals_after_scripts(self, totals: OutcomeTotals, seconds: float) -> StyledText:
        counts = {it.value: totals.counts[it] for it in Verdict}
        counts |= {it.value: totals.counts[it] for it in CountedAs if totals.counts[it]}
        if totals.warnings:
            counts["warnings"] = totals.warnings
        total = json.dumps({"scripts": totals.script_count, **counts})
        shard = "" if self.shard is None else f', "shard": "{self.shard}"'
        unproved = f', "{UNPROVED}": true' if totals.is_unproved else ""
        return styled_text_of_one_plain_piece(f'\n], "total": {total}, "seconds": {seconds:.2f}{shard}{unproved}}}\n')


def script_json(outcome: ScriptOutcome, path: str, explanation: Mapping[str, object] | None = None) -> str:
    """A script on one line, under this path, which is safe to print; beside its lines the explanation."""
    row = outcome.row
    if row.verdict is not _PASS or outcome.warnings or outcome.expected is not None:
        script = _script_json_object(outcome, path)
        return _encoded(script if explanation is None else {**script, "explanation": explanation})
    # Most scripts pass and have nothing else to report: their line is put together by hand, in a fifth of the time.
    quoted = _encoded(path) if '"' in path or "\\" in path else f'"{path}"'
    settings = _settings_json(outcome.settings) if outcome.settings else "{}"
    return f'{{"path": {quoted}, "verdict": "pass", "events": {row.number}, "below": [], "settings": {settings}}}'


@cache
def _settings_json(settings: Settings) -> str:
    return _encoded(dict(settings))


def _script_json_object(outcome: ScriptOutcome, path: str) -> dict[str, object]:
    row = outcome.row
    script: dict[str, object] = {"path": path, "verdict": row.verdict.value}
    match row.verdict:
        case Verdict.PASS:
            script["events"] = row.number
        case Verdict.ERROR:
            script["reason"] = row.word
        case Verdict.FAIL:
            script.update(line=row.number, kind=row.word)
        case Verdict.SYNTAX | Verdict.UNSUPPORTED | Verdict.LIMIT:
            script["line"] = row.number
    if outcome.why:
        script["what"] = outcome.why
    if outcome.expected is not None:
        expected = outcome.expected
        script["expected"] = {"row": expected.row, "reason": expected.reason, "known": outcome.is_known_failure}
    if outcome.warnings:
        script.update(warnings=list(outcome.warnings), strict=outcome.is_strict)
    if outcome.line_diff is not None:
        # Only who requests it pays for what reads scripts.
        from pdsuite.reports.diff_text import line_diff_json_list_or_fault

        script["met"] = line_diff_json_list_or_fault(outcome.line_diff)
    return {**script, "below": explanation_or_line_below_row(outcome), "settings": dict(outcome.settings)}
